
// Records: theirs is a struct with strings and vectors of its own, ours numbers and places in the bytes. And strings, to UTF-8.

mod records {
    use super::*;
    use agreement::Row;
    use archive::*;
    use clock::*;
    use inputs::*;
    use std::hint::black_box;

    pub fn records() {
        let device = device_record();
        let object = object_record();
        let storage = storage_record();
        let property = property_record();
        let mut fields = [0u64; 32];
        let mut tidy = vec![0u8; 4096];

        let theirs = PtpDeviceInfo::decode(&device).expect("a device record");
        accepted(numbers(ptp_device_info, &device, &mut fields));
        Row(&device, &fields).is_device(&theirs);
        let decode = black_box(PtpDeviceInfo::decode as fn(&[u8]) -> Result<PtpDeviceInfo, Error>);
        line("device record, 60 operations", 1,
             side(|| { black_box(numbers(ptp_device_info, black_box(&device), &mut fields)); }),
             Some(side(|| { black_box(decode(black_box(&device)).is_ok()); })));

        let theirs = PtpObjectInfo::decode(&object).expect("an object record");
        accepted(numbers(ptp_object_info, &object, &mut fields));
        Row(&object, &fields).is_object(&theirs);
        let decode = black_box(PtpObjectInfo::decode as fn(&[u8]) -> Result<PtpObjectInfo, Error>);
        line("object record", 1,
             side(|| { black_box(numbers(ptp_object_info, black_box(&object), &mut fields)); }),
             Some(side(|| { black_box(decode(black_box(&object)).is_ok()); })));

        let decode: fn(&[u8]) -> Result<PtpStorageInfo, Error> = black_box(|s| PtpStorageInfo::decode(&mut Cursor::new(s)));
        let theirs = decode(&storage).expect("a storage record");
        accepted(numbers(ptp_storage_info, &storage, &mut fields));
        Row(&storage, &fields).is_storage(&theirs);
        line("storage record", 1,
             side(|| { black_box(numbers(ptp_storage_info, black_box(&storage), &mut fields)); }),
             Some(side(|| { black_box(decode(black_box(&storage)).is_ok()); })));

        let decode: fn(&[u8]) -> Result<PtpPropInfo, Error> = black_box(|s| PtpPropInfo::decode(&mut Cursor::new(s)));
        let theirs = decode(&property).expect("a property record");
        accepted(numbers(crate_prop_info, &property, &mut fields));
        Row(&property, &fields).is_property(&theirs);
        line("property record, a list of 60 UINT32", 1,
             side(|| { black_box(numbers(crate_prop_info, black_box(&property), &mut fields)); }),
             Some(side(|| { black_box(decode(black_box(&property)).is_ok()); })));

        let mut book = property.clone();
        book.remove(5); // the `IsEnable` byte
        assert_eq!(accepted(numbers(book_prop_info, &book, &mut fields)), 16);
        assert_eq!((fields[0], fields[4], fields[12]), (book.len() as u64, 256, 60));
        line("property record, 60 UINT32, by the book", 1,
             side(|| { black_box(numbers(book_prop_info, black_box(&book), &mut fields)); }), None);

        for &(name, f, ref record) in &[
            ("device record written tidy", ptp_tidy_device as Bytes, &device),
            ("object record written tidy", ptp_tidy_object as Bytes, &object),
            ("storage record written tidy", ptp_tidy_storage as Bytes, &storage),
            ("property record written tidy", crate_tidy_property as Bytes, &property),
        ] {
            let count = accepted(bytes(f, record, &mut tidy));
            assert_eq!(&tidy[..count], &record[..]);
            line(name, 1, side(|| { black_box(bytes(f, black_box(record), &mut tidy)); }), None);
        }
    }

    /// Theirs reads the description, looks for the value in its list, and spells it; ours is the whole call, with the command.
    pub fn shutter() {
        let property = property_record();
        let chosen = u32s(&[20 + 59 * 5]);
        let mut out = [0u8; 64];
        let count = accepted(set_value(NUMBER, &property, 6, &chosen, &mut out));
        assert_eq!(&out[..count], &[container(1, 0x1016, &u32s(&[0x500d])), container(2, 0x1016, &chosen)].concat()[..]);
        let theirs: fn(&[u8], &PtpDataType) -> Option<Vec<u8>> = black_box(|s, value| {
            match PtpPropInfo::decode(&mut Cursor::new(s)).ok()?.Form {
                PtpFormData::Enumeration { array } => array.iter().find(|member| *member == value).map(|member| member.encode()),
                _ => None,
            }
        });
        let value = PtpDataType::UINT32(20 + 59 * 5);
        assert_eq!(theirs(&property, &value).expect("the last of the list"), chosen);
        line("shutter value checked against a list of 60, command made", 1,
             side(|| { black_box(set_value(NUMBER, black_box(&property), 6, black_box(&chosen), &mut out)); }),
             Some(side(|| { black_box(theirs(black_box(&property), black_box(&value)).is_some()); })));
    }

    pub fn strings() {
        let read: fn(&[u8]) -> Result<String, Error> = black_box(|s| Cursor::new(s).read_ptp_str());
        let mut out = vec![0u8; 1024];
        let mut measured = [0u64; 2];
        for &(name, length, units, characters) in &[
            ("string of 254 units, ASCII", "length in UTF-8 of 254 units, ASCII", 254, "The quick brown fox. "),
            ("string of 254 units, 1 to 4 bytes in UTF-8", "length in UTF-8 of 254 units, 1 to 4 bytes", 254, "Größe 12 日本語 \u{1F600}, "),
            ("string of 254 units, 3 bytes each in UTF-8", "length in UTF-8 of 254 units, 3 bytes each", 254, "日本語"),
            ("string of 12 units, 1 to 4 bytes in UTF-8", "length in UTF-8 of 12 units, 1 to 4 bytes", 12, "Größe 日 \u{1F600}"),
        ] {
            let text = long_text(characters, units);
            let data = string(&text);
            assert_eq!(read(&data).expect("a string"), text);
            let count = accepted(utf8(&data, &mut out));
            assert_eq!(&out[..count], text.as_bytes());
            assert_eq!((accepted(utf8_len(&data, &mut measured)), measured), (2, [data.len() as u64, count as u64]));
            line(name, 1,
                 side(|| { black_box(utf8(black_box(&data), &mut out)); }),
                 Some(side(|| { black_box(read(black_box(&data)).is_ok()); })));
            line(length, 1, side(|| { black_box(utf8_len(black_box(&data), &mut measured)); }), None);
        }
    }
}
