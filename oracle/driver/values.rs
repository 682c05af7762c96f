
// Values.

mod values {
    use super::*;
    use answers::*;
    use words::*;

    pub const STRING: u16 = 0xffff;

    pub fn cursor(data: &[u8], at: u64) -> Cursor<&[u8]> {
        let mut cursor = Cursor::new(data);
        cursor.set_position(at);
        cursor
    }

    pub fn value(code: u16, at: u64, data: &[u8]) -> Answered {
        let mut cursor = cursor(data, at);
        let value = PtpDataType::read_type(code, &mut cursor)?;
        Ok(format!("ok {} {}", show(&value), cursor.position()))
    }

    pub fn end(at: u64, data: &[u8]) -> Answered {
        cursor(data, at).expect_end()?;
        Ok("ok".to_owned())
    }

    fn nth<T>(items: &[T], index: u64, print: &Fn(&T) -> String) -> String {
        match items.get(index as usize) {
            Some(item) => format!("ok {}", print(item)),
            None => "no 12".to_owned(),
        }
    }

    pub fn unit(index: u64, at: u64, data: &[u8]) -> Answered {
        let string = cursor(data, at).read_ptp_str()?;
        let units: Vec<u16> = string.encode_utf16().collect();
        Ok(nth(&units, index, &u16::to_string))
    }

    pub fn item(code: u16, index: u64, at: u64, data: &[u8]) -> Answered {
        use PtpDataType::*;
        if item_width(code).is_none() {
            return Ok(NO_ANSWER.to_owned());
        }
        Ok(match PtpDataType::read_type(code, &mut cursor(data, at))? {
            AINT8(v) => nth(&v, index, &i8::to_string),
            AUINT8(v) => nth(&v, index, &u8::to_string),
            AINT16(v) => nth(&v, index, &i16::to_string),
            AUINT16(v) => nth(&v, index, &u16::to_string),
            AINT32(v) => nth(&v, index, &i32::to_string),
            AUINT32(v) => nth(&v, index, &u32::to_string),
            AINT64(v) => nth(&v, index, &i64::to_string),
            AUINT64(v) => nth(&v, index, &u64::to_string),
            AINT128(v) | AUINT128(v) => nth(&v, index, &pair),
            other => format!("no array: {:?}", other),
        })
    }

    pub fn utf8(at: u64, data: &[u8]) -> Result<Vec<u8>, Error> {
        Ok(cursor(data, at).read_ptp_str()?.into_bytes())
    }

    pub fn written_value(code: u16, word: &str) -> PtpDataType {
        use PtpDataType::*;
        match code {
            1 => INT8(signed(word) as i8),
            2 => UINT8(number(word) as u8),
            3 => INT16(signed(word) as i16),
            4 => UINT16(number(word) as u16),
            5 => INT32(signed(word) as i32),
            6 => UINT32(number(word) as u32),
            7 => INT64(signed(word)),
            8 => UINT64(number(word)),
            9 => INT128(halves(word)),
            10 => UINT128(halves(word)),
            _ => UNDEF,
        }
    }

    fn item_width(code: u16) -> Option<usize> {
        match code {
            0x4001...0x400a => Some(1 << ((code - 0x4001) / 2)),
            _ => None,
        }
    }

    /// The items of an array, read with the crate's reader from a count and the bytes, then encoded.
    pub fn written_array(code: u16, items: &[u8]) -> Option<Result<Vec<u8>, Error>> {
        let width = item_width(code)?;
        if items.len() % width != 0 {
            return None;
        }
        let mut counted = vec![];
        counted.write_u32::<LittleEndian>((items.len() / width) as u32).ok();
        counted.extend_from_slice(items);
        Some(encoded_again(code, &counted))
    }

    pub fn encoded_again(code: u16, data: &[u8]) -> Result<Vec<u8>, Error> {
        Ok(PtpDataType::read_type(code, &mut cursor(data, 0))?.encode())
    }

    /// The crate's string encoding, which document 01 leaves out of the domain.
    pub fn written_string(units: &[u32]) -> Option<Vec<u8>> {
        let units: Vec<u16> = units.iter().map(|unit| *unit as u16).collect();
        let string = String::from_utf16(&units).ok()?;
        if left_out(false) { None } else { Some(PtpDataType::STR(string).encode()) }
    }
}
