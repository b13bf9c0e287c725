# Whole inputs of bench, of cable and of console made from a seed: lines by the papers' grammar in all its freedoms,
# lines that just miss it, motor reports good and bad, and longer sessions that make sense. session(seed, index), for
# bench, is always the same bytes, and so are cable_session(seed, index), for cable, and places_session(seed, index),
# for console: numbers and addresses that just miss, for the places that it points at.
import random
import re

ENTRY_BYTES = 4096
FURTHEST = 1000000000
LOWEST, HIGHEST = -2**31, 2**31 - 1

# Name: lowest, highest and a value that lies outside or at a rule of its own.
AXIS_SETTINGS = {
    'pos': (-FURTHEST, FURTHEST, 305381), 'limit.min': (-FURTHEST, FURTHEST, 305381),
    'limit.max': (-FURTHEST, FURTHEST, 0), 'maxspeed': (1, FURTHEST, 153600), 'accel': (0, 32767, 205),
    'driver.current.max': (0, 255, 140), 'driver.current.run': (0, 140, 255), 'driver.current.hold': (0, 140, 255),
    'driver.dir': (0, 1, 2), 'encoder.index.count': (-32768, 32767, 65536)}
DEVICE_SETTINGS = {
    'comm.address': (1, 99, 5), 'comm.alert': (0, 1, 2), 'comm.checksum': (0, 1, 2), 'system.access': (1, 2, 3),
    'deviceid': (0, HIGHEST, 100), 'system.axiscount': (1, 4, 2)}
SETTINGS = {**AXIS_SETTINGS, **DEVICE_SETTINGS}

BOUNDS = sorted({around + step for step in (-1, 0, 1) for around in (
    0, 7, 16, 99, 140, 153600, -153600, 255, 256, 32767, -32768, 65536, 305381, FURTHEST, -FURTHEST, 2 * FURTHEST,
    LOWEST, HIGHEST)})

BAD_NUMBERS = [
    '0x', '-', '+', '-0x', '+0x', '--1', '+-1', '-+1', '++1', '0X10', '00x5', '1.0', '12a', '0xg', '1e3', '0x-1', 'x1',
    '0x0x1', '1+', '1-', '0x1 ', 'A', 'a1', '1_0', '1,0', '0b1', 'current', '0x1G', '0x@', '0x`', '/', '1/', '1:',
    '2147483648', '-2147483649', '4294967296', '4294967297', '-4294967295', '0x80000000', '-0x80000001', '0xffffffff',
    '0x100000001', '-0x100000000', '9999999999999999999', '18446744073709551617', '0x10000000000000001',
    '-18446744073709551615', '340282366920938463463374607431768211457', '3000000000', '-3000000000']

# What a number takes, and what stands beside that in the code of characters; and a space, which parts its word.
BESIDE = '001789+-xXaAfFgG/:;@`.,_ '

WORDS = [
    'home', 'stop', 'estop', 'move', 'abs', 'rel', 'vel', 'min', 'max', 'stored', 'get', 'set', 'tools', 'storepos',
    'current', 'warnings', 'clear', 'parking', 'state', 'park', 'unpark', 'echo', 'WR', 'FD', '0', '1', '-1', '0x10',
    'help', 'commands', 'driver', 'pos.', 'limit', 'limit.mid', 'driver.current', 'system', 'comm.', 'now', 'R', '@01',
    '~', '!'
] + list(SETTINGS)

# What is nearly `help commands`.
NEAR_HELP = [
    ['help'], ['help', 'x'], ['help', 'commands', 'x'], ['helpcommands'], ['Help', 'commands'], ['help', 'Commands'],
    ['HELP', 'COMMANDS'], ['help', 'command'], ['help', 'commandss'], ['help', 'commands.'], ['hel', 'commands'],
    ['helps', 'commands'], ['commands'], ['commands', 'help'], ['help', 'help'], ['help', 'help', 'commands'],
    ['help', 'commands', 'commands'], ['help', 'commands', '0'], ['help', '0'], ['help', '12x'], ['help', 'home'],
    ['help', 'warnings'], ['tools', 'help', 'commands'], ['get', 'help'], ['?']]


# A line that sets the address, in a spelling that is not odd: its own address word, if any, and the new address.
SET_ADDRESS = re.compile(
    rb'^/ *(?:(0x[0-9A-Fa-f]+|\d+) +(?:0 +)?)?set +comm[.]address +(0x[0-9A-Fa-f]+|\d+) *(?::\w\w)?\r?\n', re.M)


def value_of(word):
    """The value of a number without a sign."""
    return int(word, 16 if b'x' in word else 10)


class Maker:
    """One session in the making: its random numbers, its bytes, and the address that the device has by now."""

    AXES = (1, 2)
    ANY_AXIS = (0, 0, 0, 1, 1, 2, 2, 3)
    SOURCES = [(1,), (2,)]          # the numbers by which motor reports say where they come from

    def __init__(self, seed, index):
        self.dice = random.Random(f'{seed} {index}')
        self.bytes = bytearray()
        self.address = 1
        self.oddness = self.dice.choice([0.02, 0.1, 0.3])
        self.damage = self.dice.choice([0, 0.03, 0.1, 0.4])
        self.sums = self.dice.choice([0, 0.1, 0.6])
        self.drawn = self.oddness / 5           # the share of lines that are drawn out to about 80 bytes

    def chance(self, part):
        return self.dice.random() < part

    def odd(self):
        return self.chance(self.oddness)

    def pick(self, *choices):
        return self.dice.choice(choices)

    # ---- numbers

    def value(self, low, high, other=0):
        """A value at, just inside, just outside or well inside a range."""
        ends = [low - 1, low, low + 1, high - 1, high, high + 1, other - 1, other, other + 1]
        kind = self.dice.random()
        if kind < 0.5:
            return self.dice.choice(ends)
        if kind < 0.65:
            return self.dice.choice(BOUNDS)
        return self.dice.randint(low, high)

    def zeros(self):
        return '0' * (self.pick(1, 1, 2, 3, 9, 20, 40) if self.odd() else 0)

    def unsigned(self, size):
        if self.chance(self.oddness / 2 + 0.05):
            digits = ''.join(self.pick(c.lower(), c.upper()) for c in f'{size:x}')
            return '0x' + self.zeros() + digits
        return self.zeros() + str(size)

    def spelled(self, value):
        """A right spelling of a value."""
        sign = '-' if value < 0 or value == 0 and self.odd() else '+' if self.odd() else ''
        return sign + self.unsigned(abs(value))

    def number(self, value):
        """A spelling of a value, now and then a word that is no number."""
        if self.chance(self.oddness / 4):
            return self.dice.choice(BAD_NUMBERS)
        return self.spelled(value)

    # ---- the command's words

    def setting(self, writable=False):
        names = [s for s in SETTINGS if not (writable and s in ('deviceid', 'system.axiscount', 'driver.current.max'))]
        return self.dice.choice(names)

    def move(self):
        how = self.pick('abs', 'abs', 'rel', 'rel', 'vel', 'stored', 'min', 'max')
        if how in ('min', 'max'):
            return ['move', how]
        low, high, other = {
            'abs': (0, 305381, -FURTHEST), 'rel': (-305381, 305381, HIGHEST), 'vel': (-153600, 153600, 0),
            'stored': (1, 16, 0)}[how]
        return ['move', how, self.number(self.value(low, high, other))]

    def set_command(self):
        name = self.setting(writable=self.chance(0.9))
        value = self.value(*SETTINGS[name])
        if name == 'comm.address' and 1 <= value <= 99:
            self.address = value
        return ['set', name, self.number(value)]

    def storepos(self):
        words = ['tools', 'storepos', self.number(self.value(1, 16, 8))]
        last = self.pick('', 'current', 'number', 'number')
        if last == 'number':
            words.append(self.number(self.value(0, 305381, FURTHEST)))
        elif last:
            words.append(last)
        return words

    def echo(self):
        count = self.pick(0, 1, 2, 3, 5, 16, 17, 18, 20, 30)
        letters = [chr(c) for c in range(33, 127) if c != 58]
        words = [self.dice.choice(WORDS) if self.chance(0.1) else self.dice.choice(letters) for _ in range(count)]
        return ['tools', 'echo'] + words

    def help(self):
        return self.dice.choice(NEAR_HELP) if self.chance(0.3) else ['help', 'commands']

    def command(self):
        """The words of one row of the command table, or of a near miss."""
        words = self.pick(
            lambda: [], lambda: ['home'], lambda: ['stop'], lambda: ['estop'], self.move, self.move, self.move,
            lambda: ['get', self.setting()], lambda: ['get', self.setting()], self.set_command, self.set_command,
            self.set_command, self.storepos, self.storepos, lambda: ['warnings'], lambda: ['warnings', 'clear'],
            lambda: ['tools', 'parking', self.pick('state', 'park', 'unpark', 'unpark')], self.echo, self.help)()
        return self.miswording(words) if self.chance(self.oddness / 3) else words

    def miswording(self, words):
        """One word too few, too many, changed, exchanged or in other letters."""
        words, at = list(words), self.dice.randrange(len(words) + 1)
        how = self.pick('drop', 'cut', 'add', 'change', 'swap', 'case', 'part', 'longer')
        if how == 'add' or at == len(words):
            words.insert(at, self.dice.choice(WORDS + BAD_NUMBERS))
        elif how == 'drop':
            del words[at]
        elif how == 'cut':
            del words[at:]
        elif how == 'change':
            words[at] = self.dice.choice(WORDS)
        elif how == 'swap':
            words[at], words[0] = words[0], words[at]
        elif how == 'case':
            words[at] = self.pick(words[at].upper(), words[at].capitalize())
        else:
            words[at] = words[at][:-1] or 'x' if how == 'part' else words[at] + self.pick('x', '.', '0', words[at])
        return words

    # ---- the line

    def spaces(self, least):
        return ' ' * (least + (self.pick(1, 1, 2, 4) if self.chance(self.oddness / 2) else 0))

    def address_word(self):
        if self.chance(self.oddness / 8):
            return self.pick('100', '0x64', '+1', '-1', '-0', '+0', '1x', '0x', '1a', '00x1', '257', '0x101', '0xg',
                             '1.', '+', '-', '01home', '0x1x', '99999999999', '4294967297', '18446744073709551617')
        if self.odd():
            return self.unsigned(self.pick(1, 2, 5, 9, 10, 50, 98, 99))
        return self.unsigned(self.whom())

    def whom(self):
        """An address that concerns the device, or all."""
        return self.pick(0, self.address, self.address, self.address)

    def addressed(self, words):
        """Whether a line says its address where it need not."""
        return self.chance(0.5)

    def axis_word(self, axis):
        if self.chance(self.oddness / 8):
            return self.pick('01', '10', '12', '+1', '-1', '0x1', 'a', '00', '1x', '.')
        if self.chance(self.oddness / 3):
            return str(self.dice.randrange(10))
        return str(axis)

    def content(self, words, axis=None):
        """Address, axis and words with their spaces; an axis of None is left to chance."""
        if axis is None:
            ofdevice = any(word in ('parking', 'echo', 'help') or word in DEVICE_SETTINGS for word in words)
            axis = 0 if ofdevice and self.chance(0.8) else self.pick(*self.ANY_AXIS)
        head = []
        if axis or self.addressed(words):
            head.append(self.address_word())
            if axis or self.chance(0.4):
                head.append(self.axis_word(axis))
        parts = head + list(words)
        text = self.spaces(0)
        for at, part in enumerate(parts):
            text += (self.spaces(1) if at else '') + part
        return text + self.spaces(0)

    def checksum(self, content):
        right = -sum(content) % 256
        if not self.odd():
            return b':%02X' % right
        digits = self.pick(
            '%02x' % right, '%02x' % right, '%02X' % right, '%02x' % ((right + 1) % 256), '%02X' % (right ^ 16),
            '%02X' % (-(sum(content) + 47) % 256), '%02X' % (-right % 256), '%X' % right, '0%02X' % right,
            '%02X ' % right, '%02X:' % right, ':%02X' % right, '', '-1', '+1', ' 1', self.mistaken(right),
            self.mistaken(right))
        return b':' + digits.encode()

    def mistaken(self, right):
        """Two bytes that give the right sum if a byte beside the digits or the letters is taken for the next digit."""
        high, low = divmod(right, 16)
        beside = {0: 'Gg x', 9: '@`', 15: '/'}
        ways = [c + '%X' % low for c in beside.get(high, '')] + ['%X' % high + c for c in beside.get(low, '')]
        ways += ['%X' % ((high - 1) % 16) + c for c in 'Gg' if low == 0]
        return self.dice.choice(ways or ['%X' % high + 'G', 'x%X' % low])

    def footer(self):
        if self.odd():
            return self.pick(b'\n', b'\r\n', b'\r\r\n', b'\n\r', b'\n\n', b'\r\r', b'')
        return self.pick(b'\n', b'\n', b'\r\n')

    def stretched(self, content, length):
        """The content made longer, to a whole length of the line, where a spelling leaves freedom."""
        more = length - len(content)
        if more <= 0:
            return content
        places = [i for i, c in enumerate(content) if c == 32] + [0, len(content)]
        at = self.dice.choice(places)
        zeros = [i for i, c in enumerate(content) if 48 <= c <= 57 and (i == 0 or content[i - 1] in b' +-x')]
        if zeros and self.chance(0.4):
            at = self.dice.choice(zeros)
            return content[:at] + b'0' * more + content[at:]
        if b'echo' in content and self.chance(0.7):
            return content + b'e' * more
        return content[:at] + b' ' * more + content[at:]

    def line(self, words, axis=None):
        """One line, spelled with all freedoms; now and then damaged or drawn out to about 80 bytes."""
        content, footer = self.content(words, axis).encode(), self.footer()
        summed = self.chance(self.sums)
        if self.chance(self.drawn):
            length = self.pick(76, 77, 78, 79, 80, 80, 80, 81, 81, 82, 90)
            content = self.stretched(content, length - 1 - len(footer) - (3 if summed else 0))
        line = b'/' + content + (self.checksum(content) if summed else b'') + footer
        self.bytes += self.damaged(line) if self.chance(self.damage) else line

    def damaged(self, line):
        """One byte changed, put in, left out or exchanged with the next."""
        at = self.dice.randrange(len(line))
        likely = b' :/0129xR\r\n\t~!@\x7f\x80\x1f+-'
        byte = bytes([self.dice.randrange(256) if self.chance(0.5) else self.dice.choice(likely)])
        how = self.pick('change', 'insert', 'delete', 'swap')
        if how == 'change':
            return line[:at] + byte + line[at + 1:]
        if how == 'insert':
            return line[:at] + byte + line[at:]
        if how == 'delete':
            return line[:at] + line[at + 1:]
        return line[:at] + line[at + 1:at + 2] + line[at:at + 1] + line[at + 2:]

    # ---- motor reports

    def axis(self):
        return self.pick(*self.AXES)

    def scope(self):
        """All axes or one."""
        return self.pick(0, *self.AXES)

    def source(self, axis):
        return (axis,)

    def sources(self, scope):
        return [source for source in self.SOURCES if scope in (0, source[-1])]

    def report(self, axis, kind, p):
        self.report_from(self.source(axis), kind, p)

    def report_from(self, source, kind, p):
        words = ['R'] + [self.number(value) for value in (*source, kind, p)]
        if self.chance(self.oddness / 4):
            words = [words[0]] + self.miswording(words[1:])
        text = words[0] + ''.join(self.spaces(1) + word for word in words[1:]) + self.spaces(0)
        if self.chance(self.oddness / 20):
            text = text.replace(' ', self.pick(' \t', '\t ', '\t', '\r', '\0'), self.pick(1, 2, 3))
        text, footer = text.encode(), self.footer()
        if self.chance(self.oddness / 8):
            text = self.stretched(text, self.pick(79, 80, 80, 81, 81) - len(footer))
        if self.chance(self.oddness / 20):
            text += self.checksum(text[1:])
        line = text + footer
        self.bytes += self.damaged(line) if self.chance(self.damage) else line

    def any_report(self):
        kind = self.pick(1, 1, 2, 2, 3, 3, 4, 4, 5)
        p = self.value(1, 7) if kind == 4 else self.place()
        if self.odd():
            kind = self.pick(0, 1, 2, 3, 4, 5, 6, -1, 255, 256 + 3, HIGHEST)
        axis = self.pick(0, 3, 4, 5, -1, 257, LOWEST) if self.odd() else self.axis()
        self.report(axis, kind, p)

    def place(self):
        """Where an axis may be: mostly within the limits, now and then beyond what a report may say."""
        if self.odd():
            return self.pick(1, -1) * (FURTHEST + self.pick(0, 0, 1, 2000000))
        return self.pick(0, 0, 5, -7, 305381, 305382, self.dice.randint(0, 305381))

    # ---- what belongs together

    def home(self):
        self.line(['home'], 0)
        for source in self.sources(0):
            if not self.odd():
                self.report_from(source, 3, self.place())

    def moves(self):
        axis = self.scope()
        self.line(self.move(), axis)
        for _ in range(self.pick(0, 1, 2)):
            self.report(axis or self.axis(), 1, self.place())
        self.line(self.pick([], ['stop'], ['estop'], ['get', 'pos'], self.move()), self.pick(0, axis))
        if self.chance(0.7):
            for source in self.sources(axis):
                self.report_from(source, 2, self.place())
        self.line(['get', 'pos'], self.pick(0, axis))

    def limits(self):
        axis, at = self.scope(), self.value(-FURTHEST, FURTHEST, 305381)
        for name in self.pick(['limit.max', 'limit.min'], ['limit.min', 'limit.max'], ['pos', 'limit.min']):
            self.line(['set', name, self.number(at)], axis)
            at += self.pick(0, 0, 1, -1, 1000)
        self.line(['get', self.pick('limit.min', 'limit.max')], self.pick(0, axis))
        for _ in range(self.pick(0, 1, 3)):
            self.line(['move', self.pick('abs', 'abs', 'rel'), self.number(at + self.pick(-1, 0, 1))], axis)
            if self.chance(0.5):
                self.line(['estop'], 0)
                self.line(['set', 'pos', self.number(self.pick(at, at + 1, -at, FURTHEST, -FURTHEST))], axis)
        self.line(['move', self.pick('min', 'max')], axis)

    def stored(self):
        axis, which = self.scope(), self.dice.randint(1, 16)
        self.line(['tools', 'storepos', str(which), self.number(self.value(0, 305381, 17))], axis)
        self.line(['tools', 'storepos', str(which)], self.pick(0, axis))
        self.line(['tools', 'storepos', self.number(which), 'current'], self.scope())
        self.line(['tools', 'storepos', self.number(which)], 0)
        self.line(['set', self.pick('limit.min', 'limit.max'), self.number(self.value(0, 305381))], axis)
        self.line(['move', 'stored', self.number(which)], self.pick(0, axis))

    def warnings(self):
        for _ in range(self.pick(1, 2, 3, 7, 9)):
            self.report(self.axis(), 4, self.dice.randint(1, 7))
        self.line(['warnings'], self.scope())
        if self.chance(0.4):
            self.report(self.axis(), 5, self.dice.choice(BOUNDS[1:-2]))
        self.line([], self.scope())
        self.line(['warnings', 'clear'], self.scope())
        self.line(['warnings'], self.scope())
        self.report(self.axis(), 5, 0)
        self.line(['warnings'], 0)

    def parking(self):
        if self.chance(0.7):
            self.line(['estop'], 0)
        self.line(['tools', 'parking', 'park'], 0)
        for _ in range(self.pick(1, 2, 4)):
            self.line(self.pick(['home'], ['stop'], ['estop'], self.move(), ['tools', 'parking', 'state'], ['warnings'],
                                ['tools', 'parking', 'park'], self.storepos(), self.set_command()))
        self.any_report()
        self.line(['tools', 'parking', self.pick('unpark', 'unpark', 'state')], 0)

    def home_in_park(self):
        """Parked, a home that may be for an axis above the count, and what tells whether that has unparked."""
        self.line(['estop'], 0)
        self.line(['tools', 'parking', 'park'], 0)
        self.line(['home'], self.pick(0, 1, 2, 3, 9))
        self.line(self.pick(['tools', 'parking', 'state'], ['tools', 'parking', 'park'], ['stop'], self.move()), 0)
        self.any_report()

    def helping(self):
        """What the device can do, asked for with all freedoms; the sums of the info lines go with the replies'."""
        if self.chance(0.4):
            self.line(['set', 'comm.checksum', self.pick('0', '1')], 0)
        for _ in range(self.pick(1, 1, 2, 3)):
            self.line(self.help())
        self.line(self.pick([], ['warnings'], ['get', 'comm.checksum']))

    def alerts(self):
        """Alerts on, now and then off, with sums or without; then axes are set off, and reports of them come."""
        self.line(['set', 'comm.alert', self.pick('1', '1', '1', '1', '0')], 0)
        if self.chance(0.4):
            self.line(['set', 'comm.checksum', self.pick('0', '0', '1')], 0)
        for _ in range(self.pick(1, 2, 3)):
            axis = self.scope()
            speed = ['move', 'vel', self.spelled(self.dice.randint(-153600, 153600))]
            words = self.pick(['home'], ['home'], speed, self.move())
            self.line(words, axis)
            for source in self.sources(axis):
                self.arrival(source, 3 if words == ['home'] else 2)
        self.line(self.pick([], ['warnings'], ['get', 'pos'], ['get', 'comm.alert']), 0)

    def arrival(self, source, kind):
        """Reports of an axis on its way, and mostly the one that ends its motion; now and then that comes again."""
        for _ in range(self.pick(0, 0, 1, 2)):
            other = self.pick(1, 1, 4, 4, 5)
            self.report_from(source, other, self.dice.randint(1, 7) if other == 4 else self.place())
        kind = self.pick(kind, kind, kind, kind, kind, 2, 3, 1)
        for _ in range(self.pick(1, 1, 1, 1, 2)):
            self.report_from(source, kind, self.place())

    def access(self):
        self.line(['set', 'system.access', self.pick('2', '2', '2', '1', '3')], 0)
        for _ in range(self.pick(1, 2, 3)):
            name = self.pick('driver.dir', 'encoder.index.count')
            setting = ['set', name, self.number(self.value(*SETTINGS[name]))]
            self.line(self.pick(['get', name], setting), self.scope())

    def readdress(self):
        """Another address, asked for with all freedoms, and then one that is sure."""
        self.line(['set', 'comm.address', self.number(self.dice.randint(1, 99))], 0)
        self.line(self.pick([], ['get', 'comm.address']), 0)
        self.address = self.dice.randint(1, 99)
        self.be_sure()

    def be_sure(self):
        self.bytes += b'/set comm.address %d\n' % self.address

    def summing(self):
        self.line(['set', 'comm.checksum', self.pick('0', '0', '1')], 0)
        self.line(self.command())

    def sweep(self):
        """One setting, got and set at its ends."""
        name = self.setting()
        axis = self.scope() if name in AXIS_SETTINGS else 0
        for _ in range(self.pick(2, 5)):
            self.line(['set', name, self.number(self.value(*SETTINGS[name]))], axis)
            self.line(['get', name], self.pick(0, axis))

    def anything(self):
        self.line(self.command())

    def noise(self):
        """Bytes of no grammar, or a run of one byte."""
        if self.chance(0.5):
            self.bytes += bytes(self.dice.randrange(256) for _ in range(self.pick(1, 2, 5, 20, 85)))
        else:
            self.bytes += self.pick(b'', b'/', b'R', b'R ')
            self.bytes += bytes([self.dice.randrange(256)]) * self.pick(1, 2, 3, 4, 77, 79, 80, 81)
        self.bytes += self.footer()

    def short(self):
        """Very short parts: all that can stand around a slash, an R, a colon and a footer."""
        for _ in range(self.pick(1, 2, 4)):
            self.bytes += bytes(self.dice.choice(b'/R: 01\r\n\n') for _ in range(self.pick(1, 2, 3, 4, 6)))
        self.bytes += b'\n'


class CableMaker(Maker):
    """The same for the cable: four records, so several addresses, and motor reports that name the record first."""

    COUNTS = (2, 1, 4, 3)
    AXES = (1, 2, 3, 4)
    ANY_AXIS = (0, 0, 0, 1, 1, 2, 2, 3, 4, 5)
    SOURCES = [(record, axis) for record, count in enumerate(COUNTS, 1) for axis in range(1, count + 1)]

    def __init__(self, seed, index):
        super().__init__(seed, index)
        self.sent = 0               # the address of the last line

    def addresses(self):
        """Those that the records have by now, as far as lines tell that have nothing odd about them."""
        now = [1, 2, 1, 9]
        for sent, value in SET_ADDRESS.findall(self.bytes):
            if 1 <= value_of(value) <= 99:
                now = [value_of(value) if value_of(sent or b'0') in (0, own) else own for own in now]
        return now

    def content(self, words, axis=None):
        self.sent = 0
        return super().content(words, axis)

    def whom(self):
        self.sent = self.pick(0, *self.addresses() * 2)
        return self.sent

    def addressed(self, words):
        """A new address is mostly for one old one: records that have come to the same address keep it in common."""
        return self.chance(0.9 if 'comm.address' in words else 0.5)

    def be_sure(self):
        """In a plain spelling, another address for those that have one of theirs; now and then it is one of others."""
        now = self.addresses()
        new = self.dice.choice(now) if self.chance(0.2) else self.dice.randint(1, 99)
        self.bytes += b'/%d set comm.address %d\n' % (self.dice.choice(now), new)

    def source(self, axis):
        """Mostly a record that has the axis; now and then none of the chain, or a number too few or too many."""
        if self.odd():
            return self.pick((0, axis), (5, axis), (-1, axis), (257, axis), (LOWEST, axis), (axis,), (1, axis, axis))
        return self.dice.choice([record for record, _ in self.sources(axis)] or [1, 2, 3, 4]), axis

    def sources(self, scope):
        """Those of the records that the last line was for."""
        now = self.addresses()
        return [source for source in super().sources(scope) if self.sent in (0, now[source[0] - 1])]


class PlacesMaker(Maker):
    """The same for the console: mostly rows with numbers, and these and the addresses just miss in many ways."""

    def __init__(self, seed, index):
        super().__init__(seed, index)
        self.misses = self.pick(0.3, 0.6, 0.9)  # the share of the numbers that miss
        self.drawn = self.pick(0.02, 0.2)

    def bent(self, word):
        """One byte changed, put in or left out, the word cut short, or more behind it."""
        at = self.dice.randrange(len(word) + 1)
        byte = self.dice.choice(BESIDE) if self.chance(0.7) else chr(self.dice.randint(33, 126))
        how = self.pick('change', 'insert', 'delete', 'cut', 'behind')
        if how == 'change':
            return word[:at] + byte + word[at + 1:]
        if how == 'insert':
            return word[:at] + byte + word[at:]
        if how == 'delete':
            return word[:at] + word[at + 1:]
        return word[:at] if how == 'cut' else word + byte + self.pick('', '0', 'x', word)

    def past(self, most):
        """A bound's digits up to some place, one more that may carry it past the bound, and others behind."""
        prefix, digits, bound = self.pick(('', '0123456789', str(most)), ('0x', '0123456789abcdefABCDEF', f'{most:x}'))
        at = self.dice.randrange(len(bound) + 1)
        larger = [c for c in digits if c > bound[at:at + 1]] if self.chance(0.6) else None
        more = [self.dice.choice(larger or digits)]
        more += self.dice.choices(digits, k=self.pick(0, max(0, len(bound) - at - 1), 3, 12))
        return prefix + self.zeros() + bound[:at] + ''.join(more)

    def miss(self, value):
        """A word that mostly is no number, or one out of range, and mostly not by much."""
        how = self.pick('bent', 'bent', 'twice', 'past', 'past', 'junk', 'bad', 'stops')
        if how == 'bad':
            return self.dice.choice(BAD_NUMBERS)
        if how == 'stops':
            return self.pick('+', '-', '0x', '+0x', '-0x')
        if how in ('bent', 'twice'):
            word = self.bent(self.spelled(value))
            return self.bent(word) if how == 'twice' else word
        sign = self.pick('', '', '+', '-', '-', '--', '+-')
        word = sign + self.past(-LOWEST if sign == '-' else HIGHEST)
        return self.bent(word) if how == 'junk' else word

    def number(self, value):
        return self.miss(value) if self.chance(self.misses) else self.spelled(value)

    def address_word(self):
        kind = self.dice.random()
        if kind < 0.1:
            return self.bent(self.unsigned(self.whom()))
        return self.pick('', '', '', '+', '-') + self.past(99) if kind < 0.2 else super().address_word()

    def whom(self):
        return self.dice.randint(1, 99) if self.chance(0.1) else super().whom()

    def storepos(self):
        words = super().storepos()
        if words[-1] == 'current' and self.chance(0.6):
            words[-1] = self.bent('current')
        return words

    def command(self):
        words = self.pick(self.move, self.move, self.set_command, self.set_command, self.storepos, self.storepos,
                          self.storepos, super().command)()
        return self.miswording(words) if self.chance(0.15) else words

    def line(self, words, axis=None):
        """An address that was asked for in a number that missed is asked for again: most lines are for the device."""
        super().line(words, axis)
        if 'comm.address' in words:
            self.be_sure()

    def alerts(self):
        """Few numbers miss here, since none of a report has a place, and with many that do no alert would come."""
        misses, self.misses = self.misses, 0.05
        super().alerts()
        self.misses = misses


def session(seed, index):
    """The whole input of one run of bench."""
    return filled(Maker(seed, index))


def cable_session(seed, index):
    """The whole input of one run of cable."""
    return filled(CableMaker(seed, index))[:ENTRY_BYTES]


def places_session(seed, index):
    """The whole input of one run of console; it reads on behind 4,096 bytes, so there are no more."""
    maker = PlacesMaker(seed, index)
    scenes = [maker.anything] * 60 + [maker.any_report, maker.any_report, maker.readdress, maker.summing, maker.stored,
                                      maker.home, maker.noise, maker.short, maker.helping, maker.alerts]
    length = maker.pick(1, 40, 200, 600, 1500, 2500, 4000, 4090)
    while len(maker.bytes) < length:
        if maker.chance(0.05):
            maker.be_sure()
        maker.dice.choice(scenes)()
    return ending(maker)[:ENTRY_BYTES]


def filled(maker):
    """Scenes that make sense and wild lines, as the dice mix them."""
    sensible = [maker.home, maker.moves, maker.moves, maker.limits, maker.stored, maker.warnings, maker.parking,
                maker.home_in_park, maker.access, maker.readdress, maker.summing, maker.sweep, maker.helping,
                maker.alerts, maker.alerts, maker.alerts]
    wild = [maker.anything] * 12 + [maker.any_report] * 4 + [maker.noise, maker.short]
    share = maker.pick(0, 0.3, 0.7, 1)
    length = maker.pick(1, 40, 200, 600, 1500, 2500, 4000, 4090, 4200)
    if maker.chance(0.7):
        maker.home()
    if maker.chance(0.3):
        maker.bytes += b'/set system.access 2\n'
    if maker.chance(0.5):
        maker.bytes += b'/set comm.alert 1\n'
    while len(maker.bytes) < length:
        if maker.chance(0.05):
            maker.be_sure()
        maker.dice.choice(sensible if maker.chance(share) else wild)()
    return ending(maker)


def ending(maker):
    """Most sessions end as they are; some in the midst of a line, some at about 4,096 bytes."""
    whole = bytes(maker.bytes)
    if len(whole) > 3900 and maker.chance(0.8):
        whole += b'/tools echo ' * 20
        return whole[:maker.pick(4094, 4095, 4096, 4097, 4100, 4150)]
    if maker.chance(0.15):
        return whole.rstrip(b'\r\n') + maker.pick(b'', b'\r', b'\r\r', b'\n\r', b' ', b'\n\n')
    if maker.chance(0.05):
        return whole[:maker.dice.randrange(len(whole) + 1)]
    return whole
