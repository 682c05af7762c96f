
// Each question, answered by the crate.

mod questions {
    use super::*;
    use answers::*;
    use containers::*;
    use datasets::*;
    use std::panic;
    use transactions::*;
    use trees::*;
    use values::*;
    use words::Words;

    fn name(found: Option<&'static str>) -> String {
        found.map_or("none".to_owned(), |name| format!("ok {}", name))
    }

    fn numbers(read: Result<Vec<u32>, Error>) -> String {
        plain(read.map(|numbers| format!("ok {}", joined_or_none(&numbers))))
    }

    fn answer_to(question: &str, words: &Words) -> String {
        match question {
            "response-name" => name(StandardResponseCode::name(words.code(0))),
            "command-name" => name(StandardCommandCode::name(words.code(0))),
            "value" => plain(value(words.code(0), words.number(1), &words.bytes(2))),
            "end" => plain(end(words.number(0), &words.bytes(1))),
            "unit" => plain(unit(words.number(0), words.number(1), &words.bytes(2))),
            "item" => plain(item(words.code(0), words.number(1), words.number(2), &words.bytes(3))),
            "utf8" => written(words.size(2), utf8(words.number(0), &words.bytes(1))),
            "write-value" => laid_out(words.size(2), "", &written_value(words.code(0), words.0[1]).encode()),
            "write-string" => written_string(&words.list(0))
                .map_or(NO_ANSWER.to_owned(), |bytes| laid_out(words.size(1), "", &bytes)),
            "write-array" => written_array(words.code(0), &words.bytes(1))
                .map_or(NO_ANSWER.to_owned(), |bytes| written(words.size(2), bytes)),
            "tidy-value" if !left_out(words.code(0) != STRING) => written(words.size(2), encoded_again(words.code(0), &words.bytes(1))),
            "device" => plain(device(&words.bytes(0))),
            "object" => plain(object(&words.bytes(0))),
            "storage" => plain(storage(&words.bytes(0))),
            "property" if words.0[0] == "crate" => plain(property(&words.bytes(1))),
            "header" => plain(header(&words.bytes(0))),
            "container" => plain(container(&words.bytes(0))),
            "write-container" => message(words.code(0), words.code(1), words.u32(2), &words.bytes(3))
                .map_or(NO_ANSWER.to_owned(), |bytes| laid_out(words.size(4), "", &bytes)),
            "command" => command(words, None, words.size(3)),
            "command-data" => command(words, Some(&words.bytes(3)), words.size(4)),
            "call" => call(words),
            "answer" => plain(answer(words.u32(0), &words.bytes(1))),
            "handles" => numbers(answering(&words.bytes(0)).get_objecthandles(0, 0, None, None)),
            "storage-ids" => numbers(answering(&words.bytes(0)).get_storageids(None)),
            "object-count" => plain(answering(&words.bytes(0)).get_numobjects(0, 0, None, None).map(|n| format!("ok {}", n))),
            "storage-info" => plain(answering(&words.bytes(0)).get_storage_info(0, None)
                .map(|read| format!("ok {}", storage_fields(&read)))),
            "device-info" => plain(answering(&words.bytes(0)).get_device_info(None)
                .map(|read| format!("ok {}", device_fields(&read)))),
            "object-info" => plain(answering(&words.bytes(0)).get_objectinfo(0, None)
                .map(|read| format!("ok {}", object_fields(&read)))),
            "walk" => on_tree(words, &|words| plain(walk(words))),
            "path" => on_tree(words, &path),
            "paths" => on_tree(words, &paths),
            _ => NO_ANSWER.to_owned(),
        }
    }

    /// A panic of the crate's, or a question that is not well formed, is an answer too, and none of ours.
    pub fn answer_line(line: &str) -> String {
        let mut words = line.split(' ');
        let question = words.next().unwrap_or("");
        let words = Words(words.collect());
        panic::catch_unwind(panic::AssertUnwindSafe(|| answer_to(question, &words)))
            .unwrap_or_else(|_| "panic".to_owned())
    }
}
