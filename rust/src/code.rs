//! The codes of responses and commands, by their names in ptp 0.5.0.
use crate::archive;

/// A response's code.
pub type ResponseCode = u16;

/// A command's code.
pub type CommandCode = u16;

// All names, end to end: those of the responses, then those of the commands. The archive tells where each stands, and a test that these are its own.
pub(crate) const NAMES: &str = concat!(
    "UndefinedOkGeneralErrorSessionNotOpenInvalidTransactionIdOperationNotSupportedParameterNotSupported",
    "IncompleteTransferInvalidStorageIdInvalidObjectHandleDevicePropNotSupportedInvalidObjectFormatCodeStoreFull",
    "ObjectWriteProtectedStoreReadOnlyAccessDeniedNoThumbnailPresentSelfTestFailedPartialDeletionStoreNotAvailable",
    "SpecificationByFormatUnsupportedNoValidObjectInfoInvalidCodeFormatUnknownVendorCodeCaptureAlreadyTerminated",
    "DeviceBusyInvalidParentObjectInvalidDevicePropFormatInvalidDevicePropValueInvalidParameterSessionAlreadyOpen",
    "TransactionCancelledSpecificationOfDestinationUnsupported",
    "UndefinedGetDeviceInfoOpenSessionCloseSessionGetStorageIDsGetStorageInfoGetNumObjectsGetObjectHandles",
    "GetObjectInfoGetObjectGetThumbDeleteObjectSendObjectInfoSendObjectInitiateCaptureFormatStoreResetDevice",
    "SelfTestSetObjectProtectionPowerDownGetDevicePropDescGetDevicePropValueSetDevicePropValueResetDevicePropValue",
    "TerminateOpenCaptureMoveObjectCopyObjectGetPartialObjectInitiateOpenCapture",
);

fn name_at((start, length): (usize, usize)) -> &'static str {
    &NAMES[start..start + length]
}

/// The standard responses, 33 of them.
#[allow(non_upper_case_globals)]
pub mod StandardResponseCode {
    use super::ResponseCode;

    /// `0x2000`: no meaning was given.
    pub const Undefined: ResponseCode = 0x2000;
    /// `0x2001`: the operation was carried out.
    pub const Ok: ResponseCode = 0x2001;
    /// `0x2002`: it failed for a reason that no other code tells.
    pub const GeneralError: ResponseCode = 0x2002;
    /// `0x2003`: no session is open.
    pub const SessionNotOpen: ResponseCode = 0x2003;
    /// `0x2004`: the transaction number is not the one expected.
    pub const InvalidTransactionId: ResponseCode = 0x2004;
    /// `0x2005`: the camera does not have this operation.
    pub const OperationNotSupported: ResponseCode = 0x2005;
    /// `0x2006`: a parameter is not zero, and not used.
    pub const ParameterNotSupported: ResponseCode = 0x2006;
    /// `0x2007`: the transfer was broken off.
    pub const IncompleteTransfer: ResponseCode = 0x2007;
    /// `0x2008`: there is no such storage.
    pub const InvalidStorageId: ResponseCode = 0x2008;
    /// `0x2009`: there is no such object.
    pub const InvalidObjectHandle: ResponseCode = 0x2009;
    /// `0x200A`: the camera does not have this property.
    pub const DevicePropNotSupported: ResponseCode = 0x200A;
    /// `0x200B`: the object format is not known.
    pub const InvalidObjectFormatCode: ResponseCode = 0x200B;
    /// `0x200C`: the storage is full.
    pub const StoreFull: ResponseCode = 0x200C;
    /// `0x200D`: the object is protected.
    pub const ObjectWriteProtected: ResponseCode = 0x200D;
    /// `0x200E`: the storage can only be read.
    pub const StoreReadOnly: ResponseCode = 0x200E;
    /// `0x200F`: the camera does not allow it.
    pub const AccessDenied: ResponseCode = 0x200F;
    /// `0x2010`: the object has no thumbnail.
    pub const NoThumbnailPresent: ResponseCode = 0x2010;
    /// `0x2011`: the self test failed.
    pub const SelfTestFailed: ResponseCode = 0x2011;
    /// `0x2012`: only some of the objects were deleted.
    pub const PartialDeletion: ResponseCode = 0x2012;
    /// `0x2013`: the storage is not there now.
    pub const StoreNotAvailable: ResponseCode = 0x2013;
    /// `0x2014`: objects cannot be chosen by their format.
    pub const SpecificationByFormatUnsupported: ResponseCode = 0x2014;
    /// `0x2015`: SendObject came without a SendObjectInfo.
    pub const NoValidObjectInfo: ResponseCode = 0x2015;
    /// `0x2016`: the code is not of the right form.
    pub const InvalidCodeFormat: ResponseCode = 0x2016;
    /// `0x2017`: the maker's code is not known.
    pub const UnknownVendorCode: ResponseCode = 0x2017;
    /// `0x2018`: the capture has ended already.
    pub const CaptureAlreadyTerminated: ResponseCode = 0x2018;
    /// `0x2019`: the camera is busy; ask again later.
    pub const DeviceBusy: ResponseCode = 0x2019;
    /// `0x201A`: the parent is no association.
    pub const InvalidParentObject: ResponseCode = 0x201A;
    /// `0x201B`: the property's value is of another type.
    pub const InvalidDevicePropFormat: ResponseCode = 0x201B;
    /// `0x201C`: the property does not allow the value.
    pub const InvalidDevicePropValue: ResponseCode = 0x201C;
    /// `0x201D`: a parameter is not allowed.
    pub const InvalidParameter: ResponseCode = 0x201D;
    /// `0x201E`: a session is open already.
    pub const SessionAlreadyOpen: ResponseCode = 0x201E;
    /// `0x201F`: the transaction was cancelled.
    pub const TransactionCancelled: ResponseCode = 0x201F;
    /// `0x2020`: the destination cannot be chosen.
    pub const SpecificationOfDestinationUnsupported: ResponseCode = 0x2020;

    /// The name of a standard response.
    ///
    /// ```
    /// use ptp_proved::StandardResponseCode;
    /// assert_eq!(StandardResponseCode::name(StandardResponseCode::DeviceBusy), Some("DeviceBusy"));
    /// assert_eq!(StandardResponseCode::name(0x2021), None);
    /// ```
    pub fn name(v: ResponseCode) -> Option<&'static str> {
        super::archive::response_place(v).map(super::name_at)
    }
}

/// The standard commands, 29 of them.
#[allow(non_upper_case_globals)]
pub mod StandardCommandCode {
    use super::CommandCode;

    /// `0x1000`: no meaning was given.
    pub const Undefined: CommandCode = 0x1000;
    /// `0x1001`: what the camera is and has.
    pub const GetDeviceInfo: CommandCode = 0x1001;
    /// `0x1002`: opens a session.
    pub const OpenSession: CommandCode = 0x1002;
    /// `0x1003`: closes it.
    pub const CloseSession: CommandCode = 0x1003;
    /// `0x1004`: the storages.
    pub const GetStorageIDs: CommandCode = 0x1004;
    /// `0x1005`: what a storage is.
    pub const GetStorageInfo: CommandCode = 0x1005;
    /// `0x1006`: how many objects there are.
    pub const GetNumObjects: CommandCode = 0x1006;
    /// `0x1007`: their handles.
    pub const GetObjectHandles: CommandCode = 0x1007;
    /// `0x1008`: what an object is.
    pub const GetObjectInfo: CommandCode = 0x1008;
    /// `0x1009`: its bytes.
    pub const GetObject: CommandCode = 0x1009;
    /// `0x100A`: its thumbnail.
    pub const GetThumb: CommandCode = 0x100A;
    /// `0x100B`: deletes an object.
    pub const DeleteObject: CommandCode = 0x100B;
    /// `0x100C`: announces an object.
    pub const SendObjectInfo: CommandCode = 0x100C;
    /// `0x100D`: sends its bytes.
    pub const SendObject: CommandCode = 0x100D;
    /// `0x100E`: takes a picture.
    pub const InitiateCapture: CommandCode = 0x100E;
    /// `0x100F`: formats a storage.
    pub const FormatStore: CommandCode = 0x100F;
    /// `0x1010`: resets the camera.
    pub const ResetDevice: CommandCode = 0x1010;
    /// `0x1011`: makes it test itself.
    pub const SelfTest: CommandCode = 0x1011;
    /// `0x1012`: protects an object, or no more.
    pub const SetObjectProtection: CommandCode = 0x1012;
    /// `0x1013`: turns the camera off.
    pub const PowerDown: CommandCode = 0x1013;
    /// `0x1014`: the description of a property.
    pub const GetDevicePropDesc: CommandCode = 0x1014;
    /// `0x1015`: its value.
    pub const GetDevicePropValue: CommandCode = 0x1015;
    /// `0x1016`: sets it.
    pub const SetDevicePropValue: CommandCode = 0x1016;
    /// `0x1017`: sets it to its default.
    pub const ResetDevicePropValue: CommandCode = 0x1017;
    /// `0x1018`: ends an open capture.
    pub const TerminateOpenCapture: CommandCode = 0x1018;
    /// `0x1019`: moves an object.
    pub const MoveObject: CommandCode = 0x1019;
    /// `0x101A`: copies an object.
    pub const CopyObject: CommandCode = 0x101A;
    /// `0x101B`: a part of an object's bytes.
    pub const GetPartialObject: CommandCode = 0x101B;
    /// `0x101C`: begins an open capture.
    pub const InitiateOpenCapture: CommandCode = 0x101C;

    /// The name of a standard command.
    ///
    /// ```
    /// use ptp_proved::StandardCommandCode;
    /// assert_eq!(StandardCommandCode::name(StandardCommandCode::GetObject), Some("GetObject"));
    /// assert_eq!(StandardCommandCode::name(0x9001), None);
    /// ```
    pub fn name(v: CommandCode) -> Option<&'static str> {
        super::archive::command_place(v).map(super::name_at)
    }
}
