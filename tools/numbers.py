"""Fails where a number has another name in C, Rust or Python than it has in the proved source. tools/declared.py runs it.

Compared, name by name and number by number: the codes of responses and commands with the name tables of `names`; the refusals with the Refusals.antt
of the crates that give them; the type codes with those that `wire` tells apart, which alone says which of 9 and 10 is signed; the kinds of
containers with their words in the listing; the handles that are none with those of `session`; how many places a list of objects has, and the new
place that is none, with those of `tree` and `shots`; the numbers of an answer, in their order, with the row of `abi` that gives them. Each name of
an answer's number is used in c/replay.c and what it includes, as its head says."""
import re

from tools.read import parts, sources, text


def without_comments(source):
    return re.sub(r'/\*.*?\*/', '', source, flags=re.S)


def enum(header, name, prefix):
    """An enum of ptp.h: its names, without what all of them begin with, and their numbers."""
    numbers, at = {}, -1
    for part in parts(re.search(r'enum %s \{(.*?)\}' % name, without_comments(header), re.S).group(1)):
        word, _, number = part.partition(' = ')
        at = at + 1 if not number else numbers[number] if number in numbers else int(number, 0)
        numbers[word] = at
    return {word[len(prefix):] if word.startswith(prefix) else word: number for word, number in numbers.items()}


def python(module):
    return text('python', 'ptp_proved', module + '.py')


def numbered(pairs):
    return {name: int(number, 0) for name, number in pairs}


def compared(place, found, judged):
    for name in sorted({**found, **judged}):
        if found.get(name) != judged.get(name):
            yield '%s: %s is %s, and proved is %s' % (place, name, found.get(name, 'missing'), judged.get(name, 'no such name'))


# ---- the codes of responses and commands

def table(source, name):
    return [int(number) for number in parts(re.search(r'const %s: [^=]*= \[(.*?)\]' % name, source, re.S).group(1))]


def codes(kind):
    """The names of one kind by the tables of `names`, from the first code that has one."""
    source = sources('names')
    names = re.sub(r'\\\n\s*', '', re.search(r'const NAMES: .*?b"(.*?)"', source, re.S).group(1))
    first = int(re.search(r'fn %s_name\(.*?code < (0x\w+)' % kind, source, re.S).group(1), 0)
    places = zip(table(source, kind.upper() + '_STARTS'), table(source, kind.upper() + '_LENGTHS'))
    return {names[start:start + length]: first + k for k, (start, length) in enumerate(places)}


def in_capitals(name):
    return re.sub(r'(?<=[a-z])(?=[A-Z])', '_', name).upper()


def code_faults(header):
    rust = text('rust', 'src', 'code.rs')
    for kind, module, listed in (('response', 'StandardResponseCode', 'ptp_response'), ('command', 'StandardCommandCode', 'ptp_command_code')):
        judged = codes(kind)
        body = re.search(r'pub mod %s \{(.*?)\n\}' % module, rust, re.S).group(1)
        told = re.findall(r'/// `(0x\w+)`: .*\n\s*pub const (\w+): \w+ = (0x\w+);', body)
        yield from compared('rust/src/code.rs', numbered((name, number) for _, name, number in told), judged)
        yield from compared('rust/src/code.rs, the comments', numbered((name, comment) for comment, name, _ in told), judged)
        capitals = {in_capitals(name): number for name, number in judged.items()}
        yield from compared('c/ptp.h', enum(header, listed, 'PTP_%s_' % kind.upper()), capitals)


# ---- refusals, type codes and kinds

def refusal_faults(header):
    judged = numbered(pair for crate in ('layout', 'panel', 'settings', 'shots', 'network')
                      for pair in re.findall(r'^([A-Z]+) = (\d+)$', text('crates', crate, 'specs', 'Refusals.antt'), re.M))
    yield from compared('c/ptp.h', enum(header, 'ptp_refusal', 'PTP_'), judged)
    rust = text('rust', 'src', 'refusal.rs')
    placed = numbered(re.findall(r'(\w+) \{ \.\. \} => (\d+)', rust))
    plain = parts(re.search(r'const PLAIN: .*?=\s*\[(.*?)\]', rust, re.S).group(1))
    yield from compared('rust/src/refusal.rs', {**placed, **{name: number for number, name in enumerate(plain, 3)}}, judged)
    told = re.findall(r'^    \("([A-Z]+)", ', python('refusal'), re.M)
    yield from compared('python/ptp_proved/refusal.py', {name: number for number, name in enumerate(told, 1)}, judged)


def type_faults(header):
    source = text('crates', 'wire', 'src', 'kind.rt')
    integers = {('U' if sign == 'U' else '') + 'INT' + bits: int(number)
                for number, sign, bits in re.findall(r'(\d+) => Some\(Kind::([IU])(\d+)\)', source)}
    array = int(re.search(r'else \{ code - (0x\w+) \}', source).group(1), 0)
    string = int(re.search(r'pub const STRING: u16 = (0x\w+);', source).group(1), 0)
    yield from compared('c/ptp.h', enum(header, 'ptp_type', 'PTP_'), {**integers, 'ARRAY': array, 'STRING': string})
    every = {**integers, **{'A' + name: array + code for name, code in integers.items()}, 'STR': string}
    rust = text('rust', 'src', 'value.rs')
    yield from compared('rust/src/value.rs, code', numbered(re.findall(r'(\w+)\(_\) => (0x\w+)', rust)), every)
    yield from compared('rust/src/value.rs, view', numbered((name, code) for code, name in re.findall(r'(0x\w+) => (\w+)\(', rust)), every)
    readers = re.findall(r'read_ptp_([iu])(\d+) .*?, read_ptp_\1\2_vec, (\d+);', text('rust', 'src', 'reader.rs'))
    found = {('U' if sign == 'u' else '') + 'INT' + bits: int(code) for sign, bits, code in readers}
    yield from compared('rust/src/reader.rs', found, integers)
    values = python('value')
    yield from compared('python/ptp_proved/value.py', numbered(re.findall(r'"(U?INT\d+)": (\d+)', values)), integers)
    shapes = numbered(zip(('ARRAY', 'STRING'), re.search(r'^ARRAY, STRING = (\w+), (\w+)$', values, re.M).groups()))
    yield from compared('python/ptp_proved/value.py', shapes, {'ARRAY': array, 'STRING': string})


def kind_faults(header):
    line = re.search(r'^kind_text kind = .*', text('crates', 'listing', 'specs', 'Lines.antt'), re.M).group()
    judged = {name: number for number, name in enumerate(re.findall(r'spelled "(\w+) "', line), 1)}
    capitals = {in_capitals(name): number for name, number in judged.items()}
    yield from compared('c/ptp.h', enum(header, 'ptp_container_kind', 'PTP_CONTAINER_'), capitals)
    listed = re.search(r'pub enum PtpContainerType \{(.*?)\n\}', text('rust', 'src', 'record.rs'), re.S).group(1)
    yield from compared('rust/src/record.rs', numbered(re.findall(r'(\w+) = (\d+)', listed)), judged)
    kinds = re.search(r'class PtpContainerType\(.*?\n\n(.*?)\n\n', python('record'), re.S).group(1)
    yield from compared('python/ptp_proved/record.py', numbered(re.findall(r'(\w+) = (\d+)', kinds)), judged)


def handle_faults(header):
    roots, everywhere = (re.search(r'^%s = (0x\w+|\d+)$' % name, text('crates', 'session', 'specs', 'Calls.antt'), re.M).group(1)
                         for name in ('roots', 'everywhere'))
    found = numbered(re.findall(r'#define PTP_HANDLE_(\w+) UINT32_C\((\w+)\)', header))
    judged = numbered([('ROOTS', roots), ('ALL', everywhere)])
    yield from compared('c/ptp.h', found, judged)
    own = re.search(r'^ROOTS, ALL = (\w+), (\w+)$', python('session'), re.M).groups()
    yield from compared('python/ptp_proved/session.py', numbered(zip(('ROOTS', 'ALL'), own)), judged)


def place_faults(header):
    places = re.search(r'^lists_ok .*? = eqb \(length hs\) (\d+)', text('crates', 'tree', 'specs', 'Table.antt'), re.M).group(1)
    gone = re.search(r'^GONE = (\d+)$', text('crates', 'shots', 'specs', 'Collected.antt'), re.M).group(1)
    judged = numbered([('PLACES', places), ('GONE', gone)])
    yield from compared('c/ptp.h', numbered(re.findall(r'PTP_(PLACES|GONE) = (\d+)', header)), judged)
    yield from compared('rust/src/tree.rs', numbered(re.findall(r'pub const (PLACES|GONE): \w+ = (\w+);', text('rust', 'src', 'tree.rs'))), judged)
    yield from compared('python/ptp_proved/objects.py', numbered(re.findall(r'^(PLACES|GONE) = (\w+)$', python('objects'), re.M)), judged)


# ---- the numbers of an answer

# Where ptp.h has another word than the source; a count of bytes is a length there.
OTHERWISE = {
    'container': {'PAYLOAD_COUNT': 'PAYLOAD_LENGTH'},
    'record': {'BODY_COUNT': 'BODY_LENGTH'},
    'entry': {'CODE': 'TYPE'},
    'prop': {'E': 'IS_ENABLE'},
}


def cells(begin, row=''):
    """The names of what stands in a row of the source, from where it begins, without the record that it is taken from."""
    listed = re.search(r'%s.*?\[\n(.*?)\]' % begin, re.sub(r'\b([cf])\[(\d)\]', r'\1\2', sources('abi')), re.S).group(1)
    words = [re.sub(r' as u64$|^x\.', '', cell).replace('.', '_') for cell in map(str.strip, parts(listed))]
    words = [re.sub(r'_LEN$', '_LENGTH', word.upper()) for word in words]
    return [OTHERWISE.get(row, {}).get(word, word) for word in words]


def rows():
    """The numbers of each answer whose row the source spells out."""
    container = cells(r'fn container_row\(', 'container')
    form = ['FORM'] + [word.replace('LOW', 'MIN').replace('HIGH', 'MAX') for word in cells(r'Form::Range\(low, high, step\) => ')[1:]]
    inner = {'C%d' % k: 'CONTAINER_KIND' if word == 'KIND' else word for k, word in enumerate(container)}
    inner.update(('F%d' % k, word) for k, word in enumerate(form))
    yield 'container', ['NEXT'] + container
    for row in ('device', 'object', 'storage', 'prop', 'record', 'entry'):
        words = cells(r'fn %s_row\(' % row, row)
        yield row, [inner.get(word, 'TAKEN' if word == 'LEN' else word) for word in words]


def row_faults(header):
    for row, words in rows():
        found = enum(header, 'ptp_%s_number' % row, 'PTP_%s_' % row.upper())
        # those of a list are second names of a range's
        found = {name: number for name, number in found.items() if not name.startswith('LIST_')}
        yield from compared('c/ptp.h, ptp_%s_number' % row, found, {word: place for place, word in enumerate(words + ['NUMBERS'])})


def named_in_python(record):
    """The numbers of a record by its dataclass: a string and an array have two."""
    body = re.search(r'class %s:\n.*?\n\n(.*?)\n\n' % record, python('dataset'), re.S).group(1)
    for name, kind in re.findall(r'(\w+): (.*)', body):
        capitals = in_capitals(name)
        yield from [capitals] if kind == 'int' else [capitals + '_START', capitals + '_COUNT']


def record_faults(_):
    proved = dict(rows())
    for row, record in (('device', 'PtpDeviceInfo'), ('object', 'PtpObjectInfo'), ('storage', 'PtpStorageInfo')):
        found = {word: place for place, word in enumerate(['TAKEN', *named_in_python(record)])}
        yield from compared('python/ptp_proved/dataset.py, %s' % record, found, {word: place for place, word in enumerate(proved[row])})


def unused(header):
    replay = '\n'.join(without_comments(text('c', name)) for name in ('replay.c', 'replay_words.h', 'replay_values.h', 'replay_tables.h', 'replay_network.h'))
    for name in re.findall(r'enum (ptp_\w+_number) \{', header):
        for word in enum(header, name, ''):
            if not re.search(r'\b%s\b' % word, replay):
                yield 'c/replay.c: %s is not used' % word


def faults(header):
    for each in (code_faults, refusal_faults, type_faults, kind_faults, handle_faults, place_faults, row_faults, record_faults, unused):
        yield from each(header)
