
// What users read and write value by value.

mod values {
    use super::*;
    use archive::*;
    use clock::*;
    use inputs::*;
    use std::hint::black_box;

    fn handles() {
        let all: Vec<u32> = (1..1001).collect();
        let data = [u32s(&[1000]), u32s(&all)].concat();
        let mut part = [0u64; 3];
        assert_eq!(accepted(numbers(ptp_handles, &data, &mut part)), 3);
        assert_eq!(part, [data.len() as u64, 4, 1000]);
        let theirs: fn(&[u8]) -> Result<Vec<u32>, Error> = black_box(|s| Cursor::new(s).read_ptp_u32_vec());
        assert_eq!(theirs(&data).expect("handles"), all);
        line("1,000 handles read", 1,
             side(|| { black_box(numbers(ptp_handles, black_box(&data), &mut part)); }),
             Some(side(|| { black_box(theirs(black_box(&data)).is_ok()); })));
    }

    fn one_value() {
        let data = u32s(&[1_000_000]);
        let mut fields = [0u64; 4];
        assert_eq!(accepted(value(&data, 6, &mut fields)), 4);
        assert_eq!(fields, [4, 2, 1_000_000, 0]);
        let theirs: fn(u16, &[u8]) -> Result<PtpDataType, Error> = black_box(|kind, s| PtpDataType::read_type(kind, &mut Cursor::new(s)));
        assert_eq!(theirs(6, &data).expect("a value"), PtpDataType::UINT32(1_000_000));
        line("a UINT32 read by its type", 1,
             side(|| { black_box(value(black_box(&data), black_box(6), &mut fields)); }),
             Some(side(|| { black_box(theirs(black_box(6), black_box(&data)).is_ok()); })));
    }

    /// Theirs makes its bytes from a string, with a count that is one too small (docs/DIFFERENCES.md, D4): so the units alone are compared.
    fn string_written() {
        let text = "DSC_0017.JPG";
        let units: Vec<u16> = text.encode_utf16().collect();
        let mut out = [0u8; 64];
        let count = accepted(write_text(&units, &mut out));
        assert_eq!(&out[..count], &string(text)[..]);
        let theirs: fn(&PtpDataType) -> Vec<u8> = black_box(|value| value.encode());
        let given = PtpDataType::STR(text.to_string());
        assert_eq!(theirs(&given)[1..25], out[1..25]);
        line("a string of 12 units written", 1,
             side(|| { black_box(write_text(black_box(&units), &mut out)); }),
             Some(side(|| { black_box(theirs(black_box(&given)).len()); })));
    }

    fn container_written() {
        let payload = u32s(&[0x10001]);
        let mut out = [0u8; 64];
        let count = accepted(write_container(1, 0x1005, NUMBER, &payload, &mut out));
        let theirs: fn(u16, &[u8]) -> Vec<u8> = black_box(|code, payload| {
            let mut made = vec![];
            ptp_gen_message(&mut made, PtpContainerType::Command, code, NUMBER, payload);
            made
        });
        assert_eq!(theirs(0x1005, &payload), &out[..count]);
        line("a container of 16 bytes written", 1,
             side(|| { black_box(write_container(1, black_box(0x1005), NUMBER, black_box(&payload), &mut out)); }),
             Some(side(|| { black_box(theirs(black_box(0x1005), black_box(&payload)).len()); })));
    }

    /// Ours goes from value to value; theirs has them all once the description is read.
    fn list(name: &str, property: Vec<u8>, values: usize) {
        let all = |property: &[u8]| {
            let mut fields = [0u64; 16];
            accepted(numbers(crate_prop_info, property, &mut fields));
            let (code, mut at, mut left, mut count) = (fields[2] as u16, fields[10] as usize, fields[12] as u16, 0);
            let mut step = [0u64; 5];
            while next_value(property, code, at, left, &mut step) == 5 {
                at = step[0] as usize;
                left = step[1] as u16;
                count += 1;
            }
            count
        };
        let theirs: fn(&[u8]) -> usize = black_box(|s| match PtpPropInfo::decode(&mut Cursor::new(s)) {
            Ok(PtpPropInfo { Form: PtpFormData::Enumeration { array }, .. }) => array.len(),
            _ => 0,
        });
        assert_eq!((all(&property), theirs(&property)), (values, values));
        line(name, 1,
             side(|| { black_box(all(black_box(&property))); }),
             Some(side(|| { black_box(theirs(black_box(&property))); })));
    }

    /// All numbers in one call, behind the reading of the description.
    fn all_numbers() {
        let property = property_record();
        let mut words = [0u64; 60];
        let all = |property: &[u8], words: &mut [u64]| {
            let mut fields = [0u64; 16];
            accepted(numbers(crate_prop_info, property, &mut fields));
            list_numbers(property, fields[10] as usize, fields[2] as u16, fields[12] as usize, words)
        };
        assert_eq!(accepted(all(&property, &mut words)), 60);
        assert!(words.iter().cloned().eq((0..60).map(|i| 20 + i * 5)));
        let theirs: fn(&[u8]) -> Result<PtpPropInfo, Error> = black_box(|s| PtpPropInfo::decode(&mut Cursor::new(s)));
        line("all numbers of a list of 60 UINT32, in one call", 1,
             side(|| { black_box(all(black_box(&property), &mut words)); }),
             Some(side(|| { black_box(theirs(black_box(&property)).is_ok()); })));
    }

    /// A list of as many UNDEF as there can be: none has bytes.
    fn tidy_undef() {
        let property = [u16s(&[0x500d, 0]), vec![1, 1, 2], u16s(&[65_535])].concat();
        let mut out = [0u8; 64];
        assert_eq!(accepted(bytes(crate_tidy_property, &property, &mut out)), property.len());
        line("a list of 65,535 UNDEF written tidy", 1, side(|| { black_box(bytes(crate_tidy_property, black_box(&property), &mut out)); }), None);
    }

    /// A recording without notes, in memory.
    fn records_copied() {
        let one = [u32s(&[18]), u16s(&[1]), container(3, StandardResponseCode::Ok, &[])].concat();
        let recording = one.repeat(3_600);
        let (mut out, mut left) = (vec![0u8; recording.len()], [9u64; 2]);
        assert_eq!((accepted(copy_recording(&recording, &mut out, &mut left)), left), (recording.len(), [0, 0]));
        assert_eq!(out, recording);
        line("a recording of short records copied, each", 3_600, side(|| { black_box(copy_recording(black_box(&recording), &mut out, &mut left)); }), None);
    }

    fn text_written(name: &str, text: &str) {
        let units: Vec<u16> = text.encode_utf16().collect();
        let mut out = [0u8; 512];
        let count = accepted(write_text(&units, &mut out));
        assert_eq!(&out[..count], &string(text)[..]);
        line(name, 1, side(|| { black_box(write_text(black_box(&units), &mut out)); }), None);
    }

    fn strings(count: u16) -> Vec<u8> {
        let values: Vec<u8> = (0..count).flat_map(|i| string(&format!("1/{}", 20 + i))).collect();
        [u16s(&[0xd005, 0xffff]), vec![1, 1], string("1/20"), string("1/20"), vec![2], u16s(&[count]), values].concat()
    }

    pub fn values() {
        handles();
        one_value();
        string_written();
        text_written("a string of 254 units written", &long_text("The quick brown fox. ", 254));
        container_written();
        list("all values of a list of 60 UINT32", property_record(), 60);
        all_numbers();
        tidy_undef();
        records_copied();
        list("all values of a list of 60 strings", strings(60), 60);
        list("all values of a list of 6,000 strings", strings(6000), 6000);
    }
}
