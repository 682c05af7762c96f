//! libusb as a script: the driver says what the camera sends, and sees what it was sent.
//! One scripted transfer is served a read; one too long for the room is Overflow, none left is Timeout.

use std::cell::RefCell;
use std::collections::VecDeque;
use std::fmt;
use std::marker::PhantomData;
use std::time::Duration;
use std::vec;

#[derive(Debug, PartialEq)]
pub enum Error {
    NotFound,
    Overflow,
    Timeout,
}

impl fmt::Display for Error {
    fn fmt(&self, f: &mut fmt::Formatter) -> fmt::Result {
        write!(f, "{:?}", self)
    }
}

impl ::std::error::Error for Error {
    fn description(&self) -> &str {
        "scripted"
    }
}

thread_local! {
    static TO_SERVE: RefCell<VecDeque<Vec<u8>>> = RefCell::new(VecDeque::new());
    static SENT: RefCell<Vec<u8>> = RefCell::new(Vec::new());
}

/// The transfers that the camera will send from now on; what was sent to it before is forgotten.
pub fn script(transfers: Vec<Vec<u8>>) {
    TO_SERVE.with(|left| *left.borrow_mut() = transfers.into());
    SENT.with(|sent| sent.borrow_mut().clear());
}

/// Every byte sent to the camera since the script was set.
pub fn sent() -> Vec<u8> {
    SENT.with(|sent| sent.borrow().clone())
}

/// How many bytes of the script have not been read.
pub fn unread() -> usize {
    TO_SERVE.with(|left| left.borrow().iter().map(|transfer| transfer.len()).sum())
}

#[derive(Debug, PartialEq, Clone, Copy)]
pub enum Direction {
    In,
    Out,
}

#[derive(Debug, PartialEq, Clone, Copy)]
pub enum TransferType {
    Bulk,
    Interrupt,
}

pub struct EndpointDescriptor {
    address: u8,
    direction: Direction,
    transfer_type: TransferType,
}

impl EndpointDescriptor {
    pub fn address(&self) -> u8 {
        self.address
    }

    pub fn direction(&self) -> Direction {
        self.direction
    }

    pub fn transfer_type(&self) -> TransferType {
        self.transfer_type
    }
}

/// The one interface of the scripted camera: class 6, the still image class.
pub struct InterfaceDescriptor;

impl InterfaceDescriptor {
    pub fn class_code(&self) -> u8 {
        6
    }

    pub fn interface_number(&self) -> u8 {
        0
    }

    pub fn setting_number(&self) -> u8 {
        0
    }

    pub fn endpoint_descriptors(&self) -> vec::IntoIter<EndpointDescriptor> {
        let endpoint = |address, direction, transfer_type| EndpointDescriptor { address, direction, transfer_type };
        vec![
            endpoint(0x81, Direction::In, TransferType::Bulk),
            endpoint(0x02, Direction::Out, TransferType::Bulk),
            endpoint(0x83, Direction::In, TransferType::Interrupt),
        ]
        .into_iter()
    }
}

pub struct Interface;

impl Interface {
    pub fn descriptors(&self) -> vec::IntoIter<InterfaceDescriptor> {
        vec![InterfaceDescriptor].into_iter()
    }
}

pub struct ConfigDescriptor;

impl ConfigDescriptor {
    pub fn interfaces(&self) -> vec::IntoIter<Interface> {
        vec![Interface].into_iter()
    }
}

pub struct Device<'a>(PhantomData<&'a ()>);

impl<'a> Device<'a> {
    pub fn scripted() -> Device<'a> {
        Device(PhantomData)
    }

    pub fn active_config_descriptor(&self) -> Result<ConfigDescriptor, Error> {
        Ok(ConfigDescriptor)
    }

    pub fn open(&self) -> Result<DeviceHandle<'a>, Error> {
        Ok(DeviceHandle(PhantomData))
    }
}

pub struct DeviceHandle<'a>(PhantomData<&'a ()>);

impl<'a> DeviceHandle<'a> {
    pub fn claim_interface(&mut self, _interface: u8) -> Result<(), Error> {
        Ok(())
    }

    pub fn set_alternate_setting(&mut self, _interface: u8, _setting: u8) -> Result<(), Error> {
        Ok(())
    }

    pub fn release_interface(&mut self, _interface: u8) -> Result<(), Error> {
        Ok(())
    }

    pub fn write_bulk(&self, _endpoint: u8, data: &[u8], _timeout: Duration) -> Result<usize, Error> {
        SENT.with(|sent| sent.borrow_mut().extend_from_slice(data));
        Ok(data.len())
    }

    pub fn read_bulk(&self, _endpoint: u8, room: &mut [u8], _timeout: Duration) -> Result<usize, Error> {
        let transfer = TO_SERVE.with(|left| left.borrow_mut().pop_front());
        let transfer = transfer.ok_or(Error::Timeout)?;
        if transfer.len() > room.len() {
            return Err(Error::Overflow);
        }
        room[..transfer.len()].copy_from_slice(&transfer);
        Ok(transfer.len())
    }
}
