"""The script that `acetool gen --cover N` writes, made from N by the description in docs/SCRIPT.md."""
ACCESSES = ['ld'] * 4 + ['ldx'] * 3 + ['st'] * 4 + ['stx'] * 3 + ['fill'] * 2
FETCHES = ['s'] * 3 + ['c'] * 4 + ['n'] * 4 + ['u'] * 5
YIELDS = ['wb'] * 3 + ['wc'] * 3 + ['ev'] * 2 + ['we'] * 4 + ['dvm'] * 2 + ['dvm2', 'sync']
SHARED = ['ro'] * 5 + ['cs'] * 3 + ['ci', 'mi', 'wu', 'wlu', 'rn', 'wn', 'mb', 'sb']
OPERATIONS = 1024


def words_from(n):
    """The words of PCG XSH RR 64/32 that starts from n on stream 1."""
    state = (n + 3) * 6364136223846793005 + 3
    while True:
        state, old = (state * 6364136223846793005 + 3) % 2**64, state % 2**64
        word, by = ((old >> 18 ^ old) >> 27) % 2**32, old >> 59
        yield (word >> by | word << (-by & 31)) % 2**32


def operation(aces, lites, lines, x, y):
    """The line of the operation of two words."""
    port, pick = x % (aces + lites), x // 65536 % 16
    line = 64 * (x // 256 % lines)
    snooped, unsnooped, place = f'{0x1000 + line:08x}', f'{0x8000 + line:08x}', x // 4096 % 4
    word, kind = 4 * f'{y:08x}', x // 2**20 % 4 if port < aces else 3
    name = 'pf' if kind == 1 else (ACCESSES, None, YIELDS, SHARED)[kind][pick]
    fields = {
        'ld': [snooped, place], 'ldx': [snooped, place], 'st': [snooped, place, word], 'stx': [snooped, place, word], 'fill': [snooped, 4 * word],
        'pf': [snooped, FETCHES[pick]], 'dvm': [f'{4096 * (y % 4):08x}'], 'dvm2': [f'{4096 * (y % 4) + 1:08x}', f'{y:08x}'], 'sync': ['0000c000'],
        'wu': [snooped, f'{0xffff << 16 * place:016x}', 4 * word], 'wlu': [snooped, 4 * word], 'rn': [unsnooped], 'wn': [unsnooped, 16 * 'f', 4 * word],
        'mb': [], 'sb': []}
    return ' '.join(map(str, [f'{port:x}', name, *fields.get(name, [snooped])]))


def script(n):
    """The script."""
    words = words_from(n)
    x, y = next(words), next(words)
    aces, lites, lines, ways = 1 + x % 8, 1 + x // 8 % 8, 2 ** (x // 64 % 4), 1 + x // 256 % 2 ** (y % 6)
    policy = {0: 'keep', 1: 'eager'}.get(n % 8, f'mixed {n:016x}')
    header = ['ACE SCRIPT 1', 'PORTS ' + aces * 'A' + lites * 'L', f'CACHE {ways}', f'POLICY {policy}']
    return '\n'.join([*header, *(operation(aces, lites, lines, next(words), next(words)) for _ in range(OPERATIONS)), ''])
