"""Compares the C header with the Rattle sources.

Each prototype of include/scaltrovina.h is put into Rattle's words and has to be the function of its name that crates/scaltrovina/src
exports: the same parameters in the same order with the same names. The header's bounds have to be the definitions under crates/*/specs.
Each difference is said in a line, and the status is 0 only where there is none.
"""
import itertools
import math
import pathlib
import re
import sys

ROOT = pathlib.Path(__file__).resolve().parent.parent

# An exported function: its name and its parameters.
EXPORTED = re.compile(r'#\[unsafe\(no_mangle\)\]\s*pub extern "C" fn (\w+)\(([^()]*)\) -> u64\s')

# The header's bounds, and the definitions that the promises of the calls go by.
BOUNDS = {
    'SCAL_TABLE_LENGTH': 'table_length',
    'SCAL_RECORDS': 'record_count',
    'SCAL_TENANT_MAX': 'last_tenant',
    'SCAL_LINE_MAX': 'last_line',
    'SCAL_NAME_MIN': 'name_room',
    'SCAL_REPLY_MIN': 'reply_room',
    'SCAL_LISTING_MIN': 'listing_room',
    'SCAL_TEXT_MAX': 'most_text',
    'SCAL_NAS_MAX': 'most_nas',
    'SCAL_PARAMETERS_MAX': 'most_parameters',
    'SCAL_ENTRIES_MAX': 'most_entries',
    'SCAL_NETWORK_LENGTH': 'network_length',
    'SCAL_ADDRESS_LENGTH': 'address_length',
    'SCAL_TIME_MAX': 'last_time',
    'SCAL_CODE_MAX': 'most_code',
    'SCAL_ERROR_MAX': 'most_error',
    'SCAL_SPI_MIN': 'least_spi',
    'SCAL_SESSION_MAX': 'most_session',
    'SCAL_CHILDREN_MAX': 'most_children',
    'SCAL_HOLDS_MAX': 'most_holds',
}

# Bounds that no definition is the number of; tests/fields.c tries them.
TRIED = ['SCAL_SPI_MAX']


class Unclear(Exception):
    """A piece of a file that is not of a form known here."""


def spaced(text):
    """The text with one blank between its words and none at its ends."""
    return ' '.join(text.split())


# The header.

def declarations(header):
    """What is left of the header without comments, preprocessor lines, inline functions, enumerations and the frame for C++."""
    text = re.sub(r'/\*.*?\*/', ' ', header, flags=re.S)
    text = re.sub(r'^#.*$', '', text, flags=re.M)
    text = re.sub(r'static inline [^{;]*\{(?:[^{}]|\{[^{}]*\})*\}', ' ', text)
    text = re.sub(r'enum \w+ \{[^}]*\};', ' ', text)
    text = re.sub(r'typedef char \w+\[[^;]*\];', ' ', text)
    return re.sub(r'extern "C" \{(.*)\}', r'\1', text, flags=re.S)


def count_numbers(name, body):
    """How many 64-bit numbers a struct has."""
    count = 0
    for field in filter(None, map(spaced, body.split(';'))):
        match = re.fullmatch(r'uint64_t \w+(?:\[(\d+)\])?', field)
        if not match:
            raise Unclear(f'{name}: the field {field!r} is no 64-bit number')
        count += int(match[1] or 1)
    return count


def split_structs(text):
    """The structs of the header, each with its count of numbers, and the text without them."""
    pattern = r'typedef struct (\w+) \{([^}]*)\} \1;'
    structs = {match[1]: count_numbers(match[1], match[2]) for match in re.finditer(pattern, text)}
    return structs, re.sub(pattern, ' ', text)


def rattle_parameters(call, text, structs):
    """The parameters of a prototype in Rattle's words."""
    left = [] if text == 'void' else text.split(', ')
    parameters = []
    while left:
        match = re.fullmatch(r'(const )?(\w+) (\*?)(\w+)', left.pop(0))
        if not match:
            raise Unclear(f'{call}: a parameter is not understood in ({text})')
        const, base, pointer, name = match.groups()
        reference = '&' if const else '&mut '
        if base == 'uint64_t' and not const and not pointer:
            kind = 'u64'
        elif base in structs and pointer:
            kind = f'{reference}[u64; {structs[base]}]'
        elif base == 'uint8_t' and pointer and left and left.pop(0) == f'size_t {name}_length':
            kind = f'{reference}[u8]'
        else:
            raise Unclear(f'{call}: {name} is no 64-bit number, no struct of the header and no slice with {name}_length')
        parameters.append(f'{name}: {kind}')
    return parameters


def header_calls(header):
    """The parameters of each prototype in Rattle's words."""
    structs, text = split_structs(declarations(header))
    calls = {}
    for statement in filter(None, map(spaced, text.split(';'))):
        match = re.fullmatch(r'uint64_t (\w+)\(([^()]*)\)', statement)
        if not match:
            raise Unclear(f'the header: {statement!r} is no prototype of a call')
        calls[match[1]] = rattle_parameters(match[1], match[2], structs)
    return calls


def header_bounds(header):
    """The header's numbers by name, but for the version."""
    bounds = {}
    for name, written in re.findall(r'^#\s*define\s+(SCAL_(?!VERSION)\w*)(.*)$', header, flags=re.M):
        match = re.fullmatch(r' (?:([1-9]\d*)|UINT64_C\(([1-9]\d*)\))', written)
        if not match:
            raise Unclear(f'{name}: {written.strip()!r} is no decimal number')
        bounds[name] = int(match[1] or match[2])
    return bounds


# The Rattle sources.

def source_calls(folder):
    """The parameters of each exported function."""
    calls = {}
    for path in sorted(folder.rglob('*.rt')):
        text = re.sub(r'//.*', '', path.read_text(encoding='utf-8'))
        exported = EXPORTED.findall(text)
        if len(exported) != max(text.count('#[unsafe(no_mangle)]'), text.count('extern "C"')):
            raise Unclear(f'{path.name}: an exported function is not of the form #[unsafe(no_mangle)] pub extern "C" fn .. -> u64')
        for name, parameters in exported:
            calls[name] = list(filter(None, map(spaced, parameters.split(','))))
    return calls


def definitions(folder):
    """The named numbers under specs/, as they are written."""
    found = {}
    for path in sorted(folder.glob('*/specs/*.antt')):
        for name, written in re.findall(r'^abbrev pub (\w+) : ℕ\n\1 = (.+)$', path.read_text(encoding='utf-8'), flags=re.M):
            if found.setdefault(name, written) != written:
                raise Unclear(f'{path.name}: {name} is defined twice')
    return found


def value(name, found):
    """The number that a name is defined to be."""
    if name not in found:
        raise Unclear(f'no definition under crates/*/specs has the name {name}')
    written = re.sub(r'[A-Za-z]\w*', lambda match: str(value(match[0], found)), found[name])
    if not re.fullmatch(r'[\d_]+(?: [+*] [\d_]+)*', written):
        raise Unclear(f'{name}: {found[name]!r} is no sum of products')
    return sum(math.prod(map(int, product.split('*'))) for product in written.split('+'))


# The comparison.

def call_differences(c, rattle):
    for name in dict.fromkeys([*c, *rattle]):
        if name not in rattle:
            yield f'{name}: in the header, and no function is exported under this name'
        elif name not in c:
            yield f'{name}: exported, and not in the header'
        else:
            for place, (here, there) in enumerate(itertools.zip_longest(c[name], rattle[name], fillvalue='nothing'), 1):
                if here != there:
                    yield f'{name}: parameter {place} is `{here}` in the header, `{there}` in Rattle'
                    break


def bound_differences(bounds, found):
    for name in dict.fromkeys([*bounds, *BOUNDS, *TRIED]):
        if name not in bounds:
            yield f'{name}: not in the header'
        elif name in BOUNDS and bounds[name] != value(BOUNDS[name], found):
            yield f'{name}: {bounds[name]} in the header, {BOUNDS[name]} is {value(BOUNDS[name], found)}'
        elif name not in BOUNDS and name not in TRIED:
            yield f'{name}: in the header, and this script knows no definition for it'


def main():
    header = (ROOT / 'include/scaltrovina.h').read_text(encoding='utf-8')
    try:
        calls, bounds = header_calls(header), header_bounds(header)
        exported, found = source_calls(ROOT / 'crates/scaltrovina/src'), definitions(ROOT / 'crates')
        differences = [*call_differences(calls, exported), *bound_differences(bounds, found)]
    except Unclear as unclear:
        differences = [str(unclear)]
    for difference in differences:
        print('differs:', difference)
    if not differences:
        print(f'{len(calls)} prototypes and {len(BOUNDS)} bounds agree')
    return 1 if differences else 0


if __name__ == '__main__':
    sys.exit(main())
