"""Fails where C, Rust or Python declares an exported function otherwise than its Rattle source, or calls a number by another name: nothing else
compares them.

Compared: the parameters' types and the result of each function of the crate `abi` with c/ptp.h, rust/src/archive.rs and
python/ptp_proved/declared.py, which declare each, and bench/driver/archive.rs, which declares those that are measured; and what tools/numbers.py
compares."""
import re
import sys

from tools import numbers
from tools.read import parts, sources, text

C_NUMBERS = {'u8': 'uint8_t', 'u16': 'uint16_t', 'u32': 'uint32_t', 'u64': 'uint64_t', 'usize': 'size_t', 'bool': 'bool'}


def exported(crate):
    """Each exported function's parameter types, a slice as its item's type with `*`, and its result."""
    found = {}
    for name, parameters, result in re.findall(r'pub extern "C" fn (\w+)\((.*?)\) -> (\w+)', sources(crate), re.S):
        found[name] = [part.split(':')[1].strip() for part in parts(parameters)], result
    return found


def in_c(types):
    """The same in C: a slice is a pointer and a length, and an answer is read as a signed word."""
    words = []
    for kind in types:
        slice_of, lent = re.match(r'&(?:mut )?\[(\w+)\]', kind), re.match(r'&mut (\w+)$', kind)
        if slice_of:
            words += [('' if 'mut' in kind else 'const ') + C_NUMBERS[slice_of.group(1)] + ' *', 'size_t']
        elif lent:
            words.append(C_NUMBERS[lent.group(1)] + ' *')
        else:
            words.append(C_NUMBERS[kind])
    return words


def declared_in_c(header):
    for name, parameters in re.findall(r'^int64_t (\w+)\((.*?)\);', numbers.without_comments(header), re.S | re.M):
        yield name, [re.sub(r'\w+$', '', part).strip() for part in parts(re.sub(r'\s+', ' ', parameters))]


def declared_in_rust(source):
    for block in re.findall(r'extern "C" \{(.*?)\n *\}', source, re.S):
        for name, parameters, result in re.findall(r'fn (\w+)\((.*?)\) -> (\w+);', block, re.S):
            words = []
            for part in parts(parameters):
                kind = part.split(':')[1].strip()
                pointed = re.match(r'\*(const|mut) (\w+)', kind)
                if pointed:
                    words.append(('const ' if pointed.group(1) == 'const' else '') + C_NUMBERS[pointed.group(2)] + ' *')
                else:
                    words.append(C_NUMBERS[kind])
            yield name, words + ([] if result in ('i64', 'u64') else ['-> ' + result])


def declared_in_python(source):
    for name, parameters in re.findall(r'^(ptp_\w+)\((.*)\)$', source, re.M):
        yield name, in_c([part.split(': ')[1] for part in parts(parameters)])


def main():
    header, faults = text('c', 'ptp.h'), []
    own = exported('abi')
    faults += ['%s: its result is %s' % (name, result) for name, (_, result) in own.items() if result != 'u64']
    places = {
        'c/ptp.h': dict(declared_in_c(header)),
        'rust/src/archive.rs': dict(declared_in_rust(text('rust', 'src', 'archive.rs'))),
        'python/ptp_proved/declared.py': dict(declared_in_python(text('python', 'ptp_proved', 'declared.py'))),
        'bench/driver/archive.rs': dict(declared_in_rust(text('bench', 'driver', 'archive.rs'))),
    }
    for place, found in places.items():
        needed = own if place != 'bench/driver/archive.rs' else ()
        faults += ['%s: %s is not declared' % (place, name) for name in needed if name not in found]
        for name, words in found.items():
            if name not in own:
                faults.append('%s: %s is not exported' % (place, name))
            elif words != in_c(own[name][0]):
                faults.append('%s: %s takes %s, and is declared with %s' % (place, name, in_c(own[name][0]), words))
    faults += numbers.faults(header)
    print('\n'.join(faults) if faults else 'declared: %d declarations of %d exported functions' % (sum(map(len, places.values())), len(own)))
    return 1 if faults else 0


if __name__ == '__main__':
    sys.exit(main())
