"""codes [--check]: writes the names of PIMA's codes for Rust (rust/src/codes.rs) and C (c/ptp_codes.h) from the one table, python/ptp_proved/codes.tsv, which
Python reads itself. With --check it writes nothing, and fails where a file is another."""
import pathlib
import re
import sys

TABLE = pathlib.Path('python/ptp_proved/codes.tsv')
RUST, C = pathlib.Path('rust/src/codes.rs'), pathlib.Path('c/ptp_codes.h')

# Of each group: the module of Rust, the prefix of C, and what a code of it is.
GROUPS = {
    'event': ('StandardEventCode', 'event', "an event's code"),
    'property': ('StandardPropertyCode', 'property', "a property's code"),
    'format': ('StandardObjectFormat', 'format', "an object's format"),
    'storage': ('StandardStorageType', 'storage_type', "a storage's type"),
    'filesystem': ('StandardFilesystemType', 'filesystem', "a storage's filesystem"),
    'access': ('StandardAccessCapability', 'access', 'what may be done with a storage'),
    'protection': ('StandardProtectionStatus', 'protection', "an object's protection"),
    'association': ('StandardAssociationType', 'association', 'what kind of folder an object is'),
}


def read_table():
    """For each group its rows: code, name, divisor, unit."""
    rows = {group: [] for group in GROUPS}
    for line in TABLE.read_text().splitlines():
        if not line.startswith('#'):
            group, code, name, divisor, unit = (line.split('\t') + ['', ''])[:5]
            rows[group].append((int(code, 16), name, divisor, unit))
    return rows


def constant(name):
    """A name in capitals: FNumber is F_NUMBER, Panoramic2D is PANORAMIC_2D."""
    parts = re.sub(r'([a-z])(\d*[A-Z])', r'\1_\2', name)
    return re.sub(r'([A-Z])([A-Z][a-z])', r'\1_\2', parts).upper()


def rust_module(group, rows):
    module, _, what = GROUPS[group]
    lines = [f'/// PIMA 15740: {what}.', '#[allow(non_snake_case, non_upper_case_globals)]', f'pub mod {module} {{']
    for code, name, _, _ in rows:
        lines += [f'    /// `0x{code:04X}`', f'    pub const {name}: u16 = 0x{code:04X};']
    lines += ['', '    /// The name of a code; none for one that PIMA does not have.', '    pub fn name(code: u16) -> Option<&\'static str> {',
              '        Some(match code {']
    lines += [f'            {name} => "{name}",' for _, name, _, _ in rows]
    lines += ['            _ => return None,', '        })', '    }']
    if any(divisor for _, _, divisor, _ in rows):
        lines += ['', "    /// The unit of a property's value, and by what the value is divided to be in it.",
                  "    pub fn unit(code: u16) -> Option<(u32, &'static str)> {", '        Some(match code {']
        lines += [f'            {name} => ({divisor.replace("10000", "10_000")}, "{unit}"),' for _, name, divisor, unit in rows if divisor]
        lines += ['            _ => return None,', '        })', '    }']
    return lines + ['}', '']


def rust_text(table):
    lines = ["//! PIMA 15740's codes by name, but for commands and responses. Written by tools/codes.py from python/ptp_proved/codes.tsv, which has the sources.", '']
    for group, rows in table.items():
        lines += rust_module(group, rows)
    return '\n'.join(lines)


def c_group(group, rows):
    _, prefix, what = GROUPS[group]
    lines = [f'/* PIMA 15740: {what}. */', f'enum ptp_{prefix} {{']
    lines += [f'    PTP_{prefix.upper()}_{constant(name)} = 0x{code:04X},' for code, name, _, _ in rows]
    lines[-1] = lines[-1].rstrip(',')
    lines += ['};', '', f'static inline const char *ptp_{prefix}_name(uint16_t code)', '{', '    switch (code) {']
    lines += [f'    case PTP_{prefix.upper()}_{constant(name)}: return "{name}";' for _, name, _, _ in rows]
    return lines + ['    default: return NULL;', '    }', '}', '']


def c_text(table):
    lines = ["/* PIMA 15740's codes by name, but for commands and responses, which ptp.h has. Written by tools/codes.py from", ' * python/ptp_proved/codes.tsv, which has the sources.',
             ' * Each function gives the name of a code, or NULL for one that PIMA does not have. Plain C. */',
             '#ifndef PTP_CODES_H', '#define PTP_CODES_H', '', '#include <stddef.h>', '#include <stdint.h>', '']
    for group, rows in table.items():
        lines += c_group(group, rows)
    return '\n'.join(lines + ['#endif', ''])


def main():
    table = read_table()
    for path, text in ((RUST, rust_text(table)), (C, c_text(table))):
        if sys.argv[1:] != ['--check']:
            path.write_text(text)
        elif path.read_text() != text:
            sys.exit(f'{path} is not what python/ptp_proved/codes.tsv says: run python3 -m tools.codes')


main()
