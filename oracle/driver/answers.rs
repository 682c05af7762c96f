
// Words of an answer, and what is left out because document 01's domain has no answer of the crate's.

mod answers {
    use super::*;

    pub const NO_ANSWER: &'static str = "-";
    pub const FILLING: u8 = 0xa5;
    /// An answer's text, or the crate's error.
    pub type Answered = Result<String, Error>;

    pub fn outside() -> bool {
        std::env::args().any(|argument| argument == "--outside")
    }

    pub fn left_out(in_domain: bool) -> bool {
        !in_domain && !outside()
    }

    fn refusal(error: Error) -> String {
        let texts = [
            ("Unexpected end of message", 1),
            ("Invalid UTF16 data", 2),
            ("Response ", 3),
            ("Invalid message type", 4),
            ("mismatched txnid", 7),
        ];
        if let Error::Malformed(ref text) = error {
            for &(start, number) in &texts {
                if text.starts_with(start) {
                    return format!("no {}", number);
                }
            }
        }
        format!("another error: {}", error)
    }

    pub fn plain(answered: Answered) -> String {
        answered.unwrap_or_else(refusal)
    }

    pub fn hex(bytes: &[u8]) -> String {
        if bytes.is_empty() {
            return "-".to_owned();
        }
        bytes.iter().map(|byte| format!("{:02x}", byte)).collect()
    }

    pub fn joined<T: ToString>(items: &[T]) -> String {
        items.iter().map(|item| item.to_string()).collect::<Vec<_>>().join(",")
    }

    pub fn joined_or_none<T: ToString>(items: &[T]) -> String {
        if items.is_empty() { "-".to_owned() } else { joined(items) }
    }

    pub fn array<T: ToString>(items: &[T]) -> String {
        format!("[{}]", joined(items))
    }

    pub fn pair(&(high, low): &(u64, u64)) -> String {
        format!("{}:{}", high, low)
    }

    fn pairs(items: &[(u64, u64)]) -> String {
        array(&items.iter().map(pair).collect::<Vec<_>>())
    }

    pub fn text(string: &str) -> String {
        let units: Vec<String> = string.encode_utf16().map(|unit| format!("{:04x}", unit)).collect();
        format!("s<{}>", units.join("."))
    }

    pub fn show(value: &PtpDataType) -> String {
        use PtpDataType::*;
        match *value {
            UNDEF => "undef".to_owned(),
            INT8(v) => v.to_string(),
            UINT8(v) => v.to_string(),
            INT16(v) => v.to_string(),
            UINT16(v) => v.to_string(),
            INT32(v) => v.to_string(),
            UINT32(v) => v.to_string(),
            INT64(v) => v.to_string(),
            UINT64(v) => v.to_string(),
            INT128(ref v) | UINT128(ref v) => pair(v),
            AINT8(ref v) => array(v),
            AUINT8(ref v) => array(v),
            AINT16(ref v) => array(v),
            AUINT16(ref v) => array(v),
            AINT32(ref v) => array(v),
            AUINT32(ref v) => array(v),
            AINT64(ref v) => array(v),
            AUINT64(ref v) => array(v),
            AINT128(ref v) | AUINT128(ref v) => pairs(v),
            STR(ref v) => text(v),
        }
    }

    /// The crate hands back bytes of its own; here they are laid into an output of the size asked for, 9 if too short.
    pub fn laid_out(size: usize, before: &str, bytes: &[u8]) -> String {
        let mut output = vec![FILLING; size];
        if bytes.len() > size {
            return format!("no 9 {}", hex(&output));
        }
        output[..bytes.len()].copy_from_slice(bytes);
        format!("ok {}{} {}", before, bytes.len(), hex(&output))
    }

    /// A refused writer's answer has the untouched output behind its number.
    pub fn written(size: usize, bytes: Result<Vec<u8>, Error>) -> String {
        match bytes {
            Ok(bytes) => laid_out(size, "", &bytes),
            Err(error) => format!("{} {}", refusal(error), hex(&vec![FILLING; size])),
        }
    }
}
