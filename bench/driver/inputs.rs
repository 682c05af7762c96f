
// What is read and written.

mod inputs {
    use super::*;

    pub const NUMBER: u32 = 7;

    pub fn string(text: &str) -> Vec<u8> {
        let units: Vec<u16> = text.encode_utf16().collect();
        if units.is_empty() {
            return vec![0];
        }
        let mut out = vec![units.len() as u8 + 1];
        for unit in units {
            out.write_u16::<LittleEndian>(unit).ok();
        }
        out.extend_from_slice(&[0, 0]);
        out
    }

    pub fn array16(first: u16, count: u16) -> Vec<u8> {
        PtpDataType::AUINT16((0..count).map(|i| first + i).collect()).encode()
    }

    pub fn u16s(numbers: &[u16]) -> Vec<u8> {
        numbers.iter().flat_map(|n| n.to_le_bytes()).collect()
    }

    pub fn u32s(numbers: &[u32]) -> Vec<u8> {
        numbers.iter().flat_map(|n| n.to_le_bytes()).collect()
    }

    pub fn u64s(numbers: &[u64]) -> Vec<u8> {
        numbers.iter().flat_map(|n| n.to_le_bytes()).collect()
    }

    pub fn device_record() -> Vec<u8> {
        [
            u16s(&[100]), u32s(&[6]), u16s(&[100]), string("microsoft.com: 1.0"), u16s(&[0]), array16(0x1001, 60),
            array16(0x4001, 12), array16(0x5001, 40), array16(0x3801, 2), array16(0x3001, 5), string("Trempulivu"),
            string("Bench camera"), string("1.2"), string("00417"),
        ].concat()
    }

    pub fn object_record() -> Vec<u8> {
        [
            u32s(&[0x10001]), u16s(&[0x3801, 0]), u32s(&[24_117_248]), u16s(&[0x3808]),
            u32s(&[9_216, 160, 120, 6_000, 4_000, 24, 3]), u16s(&[0]), u32s(&[0, 17]), string("DSC_0017.JPG"),
            string("20261115T080000"), string("20261115T080000"), string(""),
        ].concat()
    }

    pub fn storage_record() -> Vec<u8> {
        [u16s(&[4, 3, 0]), u64s(&[64_000_000_000, 63_999_000_000]), u32s(&[5_120]), string("Card"), string("BENCH")].concat()
    }

    pub fn property_record() -> Vec<u8> {
        let times: Vec<u32> = (0..60).map(|i| 20 + i * 5).collect();
        [u16s(&[0x500d, 6]), vec![1, 1], u32s(&[100, 40]), vec![2], u16s(&[60]), u32s(&times)].concat()
    }

    pub fn container(kind: u16, code: u16, payload: &[u8]) -> Vec<u8> {
        [u32s(&[12 + payload.len() as u32]), u16s(&[kind, code]), u32s(&[NUMBER]), payload.to_vec()].concat()
    }

    /// So many units, of these characters again and again.
    pub fn long_text(characters: &str, units: usize) -> String {
        let mut text = String::new();
        let mut left = units;
        for c in characters.chars().cycle() {
            if c.len_utf16() > left {
                break;
            }
            left -= c.len_utf16();
            text.push(c);
        }
        while left > 0 {
            text.push('.');
            left -= 1;
        }
        text
    }
}
