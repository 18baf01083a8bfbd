"""The stack that the functions of an archive take at most, from their machine code: x86-64, as objdump prints it.

Every way through a function is followed with the number of bytes that it has put on the stack so far. What cannot be
followed, as a call through a register or a stack pointer that is set in another way, is an error, so that no answer is too
low.
"""

import re
import subprocess
from collections import namedtuple

WORD = 8  # bytes of an address or a register on the stack
HEAD = re.compile(r'^[0-9a-f]+ <(.+)>:$')
CODE = re.compile(r'^ *([0-9a-f]+):\t(\S+) *([^#<]*?) *(?:[#<].*)?$')
LINK = re.compile(r'^\t+[0-9a-f]+: R_X86_64_\w+\t(?:\.text\.)?(.+?)([-+]0x[0-9a-f]+)?$')
PADDING = ('nop', 'nopw', 'nopl', 'cs', 'data16', 'int3', 'xchg')
NO_STEP = ('leave', 'enter', 'pushf', 'popf')

# Where it stands, its name, what it works on, and the function that it leads to if the linker is to put that in.
Instruction = namedtuple('Instruction', 'address name operands leads_to')


class Unknown(Exception):
    """Machine code that is not followed."""


def functions(archive):
    """The instructions of each function, by its name."""
    printed = subprocess.run(['objdump', '-d', '-r', '--no-show-raw-insn', archive], check=True, capture_output=True,
                             text=True).stdout
    found, code = {}, []
    for line in printed.splitlines():
        if head := HEAD.match(line):
            code = found.setdefault(head[1], [])
        elif part := CODE.match(line):
            code.append(Instruction(int(part[1], 16), part[2], part[3], None))
        elif (link := LINK.match(line)) and code[-1].name.startswith(('call', 'j')):
            if link[2] != '-0x4':
                raise Unknown(f'{code[-1]}: not to the start of {link[1]}')
            code[-1] = code[-1]._replace(leads_to=link[1])
    return found


def symbols(archive):
    """The archive's symbols by nm's letter for their kind: `U` is for those that others have to define."""
    printed = subprocess.run(['nm', archive], check=True, capture_output=True, text=True).stdout
    kinds = {}
    for kind, name in re.findall(r'^(?:[0-9a-f]+)? +(\w) (\S+)$', printed, re.M):
        kinds.setdefault(kind, []).append(name)
    return kinds


class Walk:
    """One function: the deepest byte that it uses itself, and the functions that it calls, each with the bytes put on."""

    def __init__(self, name, code):
        self.name, self.code = name, code
        self.at = {instruction.address: k for k, instruction in enumerate(code)}
        self.put, self.ways = {}, [(0, 0)]  # bytes put on before each instruction, and the ways still to follow
        self.deepest, self.calls, self.tables = 0, [], set()
        while self.ways:
            self.follow(*self.ways.pop())
            if not self.ways:
                self.enter_tables()

    def unknown(self, instruction, what):
        return Unknown(f'{self.name}, {instruction.address:x}, {instruction.name} {instruction.operands}: {what}')

    def enter_tables(self):
        """What no way leads to is entered as the jumps by a table were left, unless it is padding."""
        for k, instruction in enumerate(self.code):
            if k not in self.put and not instruction.name.startswith(PADDING):
                if len(self.tables) != 1:
                    raise self.unknown(instruction, 'nothing leads here')
                self.ways.append((k, *self.tables))
                return

    def follow(self, k, put):
        """From instruction k on, to where the way ends or joins one that was followed."""
        probe = Probe()
        while k not in self.put:
            self.put[k] = put
            instruction = self.code[k]
            if self.ends(instruction, put):
                return
            if instruction.name.startswith('j'):
                if probe.goes_round:
                    put, probe = probe.bytes, Probe()
                else:
                    self.ways.append((self.at[int(instruction.operands, 16)], put))
            elif instruction.name == 'call':
                self.calls.append((put + WORD, instruction.leads_to))
            elif not probe.takes(instruction, put):
                put = self.moved(instruction, put)
            below = [int(number, 16) for number in re.findall(r'-(0x\w+)\(%rsp', instruction.operands)]
            self.deepest = max([self.deepest, put, *(put + number for number in below)])
            k += 1
        if self.put[k] != put:
            raise self.unknown(self.code[k], f'{self.put[k]} bytes on the stack, or {put}')

    def ends(self, instruction, put):
        """Whether a way ends: at a return, or at a jump for good, which goes on elsewhere."""
        name, operands, leads_to = instruction[1:]
        if name == 'ret' and put:
            raise self.unknown(instruction, f'{put} bytes on the stack')
        if name == 'call' and not leads_to or name.startswith('j') and name != 'jmp' and leads_to:
            raise self.unknown(instruction, 'to where?')
        if name == 'jmp' and leads_to:  # which returns in this function's place
            self.calls.append((put, leads_to))
        elif name == 'jmp' and operands.startswith('*'):
            self.tables.add(put)
        elif name == 'jmp':
            self.ways.append((self.at[int(operands, 16)], put))
        return name in ('ret', 'jmp', 'ud2')

    def moved(self, instruction, put):
        """The bytes put on the stack after an instruction that leads nowhere else."""
        name, operands = instruction.name, instruction.operands
        amount = re.fullmatch(r'\$(-?0x[0-9a-f]+),%rsp', operands)
        if name == 'push':
            return put + WORD
        if name == 'pop':
            return put - WORD
        if name in ('sub', 'add') and amount:
            return put + int(amount[1], 16) * (1 if name == 'sub' else -1)
        if name in NO_STEP or operands.endswith('%rsp') and name not in ('cmp', 'test'):
            raise self.unknown(instruction, 'moves the stack pointer')
        return put


class Probe:
    """The loop by which a large frame is put on page by page: it goes round until the stack pointer is at %r11."""

    def __init__(self):
        self.bytes, self.goes_round = None, False

    def takes(self, instruction, put):
        """Whether the instruction is the loop's own, and no other."""
        name, operands = instruction.name, instruction.operands
        self.goes_round = False
        if (name, operands) == ('mov', '%rsp,%r11'):
            self.bytes = put
        elif name == 'sub' and self.bytes is not None and (amount := re.fullmatch(r'\$(0x[0-9a-f]+),%r11', operands)):
            self.bytes += int(amount[1], 16)
        elif name == 'lea' and (amount := re.fullmatch(r'-(0x[0-9a-f]+)\(%rsp\),%r11', operands)):
            self.bytes = put + int(amount[1], 16)
        elif (name, operands) == ('cmp', '%r11,%rsp') and self.bytes is not None:
            self.goes_round = True
        else:
            return False
        return True


def needed(archive, name):
    """Bytes below the caller's frame that a call of this function takes at most, the return address among them.

    Of a function that others define only the return address is counted.
    """
    code, known = functions(archive), dict.fromkeys(symbols(archive).get('U', ()), 0)

    def below(function, callers):
        if function in callers:
            raise Unknown(f'{function} calls itself')
        if function not in known:
            walk = Walk(function, code[function])
            beyond = [put + below(callee, (*callers, function)) for put, callee in walk.calls]
            known[function] = max([walk.deepest, *beyond])
        return known[function]

    return WORD + below(name, ())
