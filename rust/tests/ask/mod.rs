//! The questions of docs/ASK.md that the interface can answer, answered through it.
mod datasets;
mod links;
mod network;
mod settings;
mod show;
mod tables;
mod values;
mod words;

use ptp_proved::{
    from_network, object_handles, storage_ids, tidy_device, tidy_object, tidy_storage, write_array, StandardCommandCode,
    StandardResponseCode,
};

/// Every kind that is compared.
pub const KINDS: [&str; 67] = [
    "response-name",
    "command-name",
    "value",
    "end",
    "unit",
    "item",
    "units",
    "numbers",
    "utf8",
    "write-value",
    "write-string",
    "write-array",
    "tidy-value",
    "tidy-device",
    "tidy-object",
    "tidy-storage",
    "write-container",
    "handles",
    "storage-ids",
    "object-count",
    "storage-info",
    "device-info",
    "object-info",
    "write-record",
    "listing",
    "device",
    "object",
    "storage",
    "property",
    "tidy-property",
    "nth",
    "list",
    "newer",
    "command",
    "command-data",
    "panel",
    "call",
    "answer",
    "response",
    "needed",
    "walk",
    "path",
    "paths",
    "delete",
    "collect",
    "add",
    "folders",
    "folder-paths",
    "link",
    "linked-walk",
    "linked-paths",
    "linked-delete",
    "linked-collect",
    "linked-add",
    "settings",
    "settings-find",
    "settings-store",
    "settings-write",
    "settings-remove",
    "record",
    "copy",
    "mend",
    "container",
    "packet",
    "to-network",
    "from-network",
    "recording",
];

/// The answer's words; `None` where the words are no question.
pub fn answer(kind: &str, words: &[&str]) -> Option<String> {
    match (kind, words) {
        ("device", [s]) => datasets::device(s),
        ("object", [s]) => datasets::object(s),
        ("storage", [s]) => datasets::storage(s),
        ("property", [layout, s]) => datasets::property(layout, s),
        ("tidy-property", [layout, s, room]) => datasets::tidy(layout, s, room),
        ("nth", [layout, n, s]) => datasets::nth(layout, n, s),
        ("list", [layout, s]) => datasets::list(layout, s),
        ("newer", [layout, description, payload]) => datasets::newer(layout, description, payload),
        ("command", [state, code, params, room]) => links::command(state, code, params, None, room),
        ("command-data", [state, code, params, s, room]) => links::command(state, code, params, Some(s), room),
        ("panel", [layout, state, description, code, value, room]) => {
            links::set_value(layout, state, description, code, value, room)
        }
        ("call", [name, state, storage, filter, handle, room]) => links::call(name, state, [storage, filter, handle], room),
        ("answer", [number, s]) => links::answer(number, s),
        ("response", [number, s]) => links::response(number, s),
        ("needed", [number, s]) => links::needs(number, s),
        ("walk" | "path" | "paths" | "folders" | "folder-paths" | "delete" | "collect" | "add" | "link", _) => {
            tables::answer(kind, words)
        }
        ("linked-walk" | "linked-paths" | "linked-delete" | "linked-collect" | "linked-add", _) => tables::answer(kind, words),
        ("settings", [edition, row]) => settings::row(edition, row),
        ("settings-find", [edition, row, vendor, property, serial]) => settings::find(edition, row, vendor, property, serial),
        ("settings-store", [edition, row, entry, room]) => settings::store(edition, row, entry, room),
        ("settings-write", [vendor, property, code, value, key, serial, room]) => {
            settings::write([vendor, property, code], value, key, serial, room)
        }
        ("settings-remove", [edition, row, vendor, property, key, serial, room]) => {
            settings::remove(edition, row, [vendor, property], key, serial, room)
        }
        ("packet", [at, s]) => network::packet(at, s),
        ("to-network", [direction, s, room]) => network::to(direction, s, room),
        ("from-network", [s, room]) => values::tidy(from_network, s, room),
        ("record", [s]) => links::record(s),
        ("recording", [s]) => links::recording(s),
        ("copy", [s, room]) => links::copy(s, room),
        ("mend", [s, room, report]) => links::mend(s, room, report),
        ("container", [s]) => values::container(s),
        ("response-name", [code]) => values::name(StandardResponseCode::name, code),
        ("command-name", [code]) => values::name(StandardCommandCode::name, code),
        ("value", [code, at, s]) => values::value(code, at, s),
        ("end", [at, s]) => values::end(at, s),
        ("unit", [n, at, s]) => values::a_unit(n, at, s),
        ("item", [code, n, at, s]) => values::an_item(code, n, at, s),
        ("units", [at, s, room]) => values::all_units(at, s, room),
        ("numbers", [code, at, count, s, room]) => values::all_numbers(code, at, count, s, room),
        ("utf8", [at, s, room]) => values::in_utf8(at, s, room),
        ("write-value", [code, value, room]) => values::write_value(code, value, room),
        ("write-string", [units, room]) => values::write_string(units, room),
        ("write-array", [code, s, room]) => values::typed(write_array, code, s, room),
        ("tidy-value", [code, s, room]) => values::typed(values::tidy_typed, code, s, room),
        ("tidy-device", [s, room]) => values::tidy(tidy_device, s, room),
        ("tidy-object", [s, room]) => values::tidy(tidy_object, s, room),
        ("tidy-storage", [s, room]) => values::tidy(tidy_storage, s, room),
        ("write-container", [kind, code, number, s, room]) => values::put_container(kind, code, number, s, room),
        ("handles", [s]) => values::handles(object_handles, s),
        ("storage-ids", [s]) => values::handles(storage_ids, s),
        ("object-count", [s]) => values::count(s),
        ("storage-info", [s]) => datasets::storage_payload(s),
        ("device-info", [s]) => datasets::device(s).map(without_length),
        ("object-info", [s]) => datasets::object(s).map(without_length),
        ("write-record", [kind, s, room]) => values::put_record(kind, s, room),
        ("listing", [s]) => values::listing(s),
        _ => None,
    }
}

// The answer of a camera call has the record's fields and not the length that it took; a refusal has none.
fn without_length(answer: String) -> String {
    match answer.strip_prefix("ok ").and_then(|fields| fields.split_once(' ')) {
        Some((_, fields)) => format!("ok {fields}"),
        None => answer,
    }
}
