"""Binary traces, as docs/BINARY.md says, for the checks: of text, and as text."""
MAGIC, MOST_EVENTS = b'ACEB', 1048576
DIGIT, FLAG, TWO = ('digit', 15), ('digit', 1), ('digit', 3)
PORT, ADDR, WORD, LINE = ('port', 0), ('hex', 4), ('hex', 16), ('hex', 64)
STATE, CHANNEL, OUTCOME = ('I', 'UC', 'UD', 'SC', 'SD'), ('R', 'W'), ('ok', 'skip', 'fail')
RECORDS = [
    ('AR', PORT, DIGIT, ADDR, DIGIT, TWO, TWO, FLAG), ('R', PORT, DIGIT, DIGIT, FLAG, WORD), ('RK', PORT, STATE), ('AW', PORT, DIGIT, ADDR, ('digit', 7), TWO, TWO),
    ('W', PORT, ('hex', 2), FLAG, WORD), ('B', PORT, DIGIT, TWO), ('WK', PORT, STATE), ('AC', PORT, ADDR, DIGIT), ('CR', PORT, ('hex', 1, 31), STATE),
    ('CD', PORT, FLAG, WORD), ('G', PORT, CHANNEL, DIGIT), ('M', PORT, CHANNEL, DIGIT, LINE), ('S', PORT, ADDR, STATE), ('L', PORT, ADDR, TWO, FLAG, WORD),
    ('D', PORT, ADDR, ('hex', 8), FLAG, LINE), ('OP', PORT, ('hex', 2), OUTCOME), ('MEM', ADDR, LINE)]


def size_of(field):
    return field[1] if field[0] == 'hex' else 1


def packed_field(field, word):
    """The bytes of a field, of its word in a text."""
    if field in (STATE, CHANNEL, OUTCOME):
        return bytes([field.index(word)])
    return int(word, 16).to_bytes(size_of(field), 'big')


def packed(text):
    """The binary trace of whole lines of a trace."""
    lines = text.decode().split('\n')[:-1]
    if len(lines) < 2:
        return b''
    version, ports = int(lines[0][4:]), lines[1][6:]
    ace = sum(1 << port for port, letter in enumerate(ports) if letter == 'A')
    out = [MAGIC, bytes([version, len(ports)]), ace.to_bytes(4, 'big')]
    tags = {record[0]: (tag, record[1:]) for tag, record in enumerate(RECORDS, 1)}
    for line in lines[2:]:
        words = line.split(' ')
        tag, fields = tags[words[0]]
        out.append(bytes([tag]) + b''.join(map(packed_field, fields, words[1:])))
    return b''.join(out)


def field_text(field, number, version):
    """The word of a field in a text, or None where its number is out of range."""
    if field in (STATE, CHANNEL, OUTCOME):
        return field[number] if number < len(field) else None
    kind, most = field[0], {'port': 16 ** version - 1, 'digit': field[1]}.get(field[0], field[2] if len(field) > 2 else None)
    digits = {'port': version, 'digit': 1}.get(kind, 2 * size_of(field))
    return None if most is not None and number > most else f'{number:0{digits}x}'


def unpacked(bytes_):
    """The status, the text and the note that are due to bytes, read as a binary trace."""
    def bad(text, byte, reason):
        return 3, ''.join(text).encode(), f'malformed byte {byte}: Z{reason}\n'.encode()
    if len(bytes_) < 10:
        return bad([], 0, 1)
    version, ports, ace = bytes_[4], bytes_[5], int.from_bytes(bytes_[6:10], 'big')
    letters = ''.join('A' if ace >> port & 1 else 'L' for port in range(ports))
    most = 8 * version
    if bytes_[:4] != MAGIC or version not in (1, 2) or ports == 0 or max(letters.count('A'), letters.count('L')) > most or ace >> ports:
        return bad([], 0, 2)
    text, place = [f'ACE {version}\nPORTS {letters}\n'], 10
    while place < len(bytes_):
        tag = bytes_[place]
        if len(text) > MOST_EVENTS:
            return 6, ''.join(text).encode(), b'limit events\n'
        if not 1 <= tag <= 15 + version:
            return bad(text, place, 3)
        name, *fields = RECORDS[tag - 1]
        end = place + 1 + sum(map(size_of, fields))
        if end > len(bytes_):
            return bad(text, place, 1)
        words, at = [name], place + 1
        for field in fields:
            words.append(field_text(field, int.from_bytes(bytes_[at:at + size_of(field)], 'big'), version))
            at += size_of(field)
        if None in words:
            return bad(text, place, 4)
        text.append(' '.join(words) + '\n')
        place = end
    return 0, ''.join(text).encode(), b''
