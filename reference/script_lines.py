"""Scripts of lines of every kind: many that are no calls, and calls that are spelled in unusual ways.

What is expected was taken from docs/PROGRAMS.md by hand. Each recipe takes a source of chance, and gives a script
(scripts.py).
"""

from scripts import Script, Setting, put_in_or_take_out

ANY_BOUND = 'exact or linear K or staircase K'
ANY_CALL = 'frame, admit, dismiss or inquire'
TOO_LONG = 'a line of at most 128 bytes'
FORMS = {
    'exact': 'exact',
    'linear': 'linear K',
    'staircase': 'staircase K',
    'frame': 'frame H',
    'admit': 'admit RANK C D T J',
    'dismiss': 'dismiss RANK',
    'inquire': 'inquire RANK',
}

# The row that the calls here put in, on a frame of 12.
ROW = ['1', '4', '4', '0']


def number_for(name):
    """What is expected where a word is no number."""
    return f'a number from 0 to 4294967295 for {name}'


# Words that are no numbers: just past 32 bits and far past them, signs, other bases and forms, digits that are no
# ASCII, and bytes that part no words.
NO_NUMBERS = [
    b'4294967296', b'4294967297', b'4294967308', b'04294967296', b'9999999999', b'18446744073709551616',
    b'18446744073709551617', b'340282366920938463463374607431768211457', 100 * b'9', b'1' + 99 * b'0', b'+1',
    b'-1', b'-0', b'+0', b'--1', b'1-', b'0x1', b'0X1', b'x1', b'1h', b'0b1', b'0o1', b'1e0', b'1E0', b'1.',
    b'.1', b'1.0', b'1,0', b'1_0', b"1'0", b'1/1', b'1:', b'one', b'two', b'RANK', b'H', b'a', b'A', b'nan',
    b'inf', b'\xd9\xa1', b'\xef\xbc\x91', b'\xb2', b'1\xa0', b'\xa01', b'\xe2\x80\x891', b'\xff', b'\x80',
    b'\x001', b'1\x00', b'\x00', b'1\x0b', b'1\x0c', b'\x0c', b'\r1', b'1\r1', b'#', b'1#', b'"1"', b'(1)',
    b'1;', b'/', b':', b'\x7f', b'\x1b',
]

# Words for numbers that are not written as usual, with how they are usually.
ODD_NUMBERS = [
    (b'00', 0), (b'01', 1), (b'0000000001', 1), (90 * b'0' + b'1', 1), (b'4294967295', 4_294_967_295),
    (b'004294967295', 4_294_967_295), (40 * b'0', 0), (b'08', 8), (b'0012', 12),
]

# First words that are none of the four, nor of the three.
NO_WORDS = [
    b'hello', b'FRAME 12', b'Frame 12', b'fRAME 12', b'ADMIT 1 1 4 4 0', b'Admit 1 1 4 4 0', b'DISMISS 1',
    b'INQUIRE 1', b'frames 12', b'fram 12', b'f 12', b'frame12', b'frame=12', b'frame:12', b'frame,12',
    b'frame: 12', b'frame; 12', b'admit1 1 4 4 0', b'admit(1,1,4,4,0)', b'admitted 1 1 4 4 0', b'inquiry 1',
    b'dismissed 1', b'remove 1', b'query 1', b'12', b'1 1 4 4 0', b'0', b'-', b'--help', b'?', b'.',
    b'"frame" 12', b'end', b'quit', b'EXACT', b'Exact', b'LINEAR 3', b'Linear 3', b'linear3', b'exactly',
    b'exact,', b'linear=3', b' # indented', b'\t# indented', b'  #', b'\t#frame 12', b'// frame 12',
    b'; frame 12', b'-- frame 12', b'\x00', b'\x00frame 12', b'frame\x0012', b'frame\x00 12', b'exact\x00',
    b'\xef\xbb\xbfframe 12', b'\xef\xbb\xbfexact', b'\xff\xfe', b'frame\xa012', b'frame\xc2\xa012',
    b'frame\x0b12', b'frame\x0c12', b'\x0b', b'\x0c', b'\xa0', b'\xc2\xa0', b'\x85', b'\x1c', b'\x1f',
    b'\x1bframe 12', b'\x7f', b'fr\xc3\xa4me 12', b'\xd1\x84', b'\rframe 12', b'frame\r12', b'frame\r 12',
    b'exact\r \r', b'\r \r', b'\r\r', b' \r\r', b'\r ', b'\r\t', b'\r# no comment', b'=', b' === script 1',
    b'_', b'not a call', b'done', b'refused 10 no rank', b'row 1 4 4 0',
]

# First words that nearly name a staircase.
NO_STAIRS = [
    b'staircase3', b'Staircase 3', b'STAIRCASE 3', b'sTAIRCASE 3', b'staircases 3', b'staircas 3', b'stair 3',
    b'stairs 3', b'stair case 3', b'staircase=3', b'staircase:3', b'staircase,3', b'staircase-3', b'staircase(3)',
    b'"staircase" 3', b'staircase\x00 3', b'staircase\x003', b'staircase\xa03', b'staircase\x0b3',
    b'\xef\xbb\xbfstaircase 3', b'staircase\r3', b'\rstaircase 3', b'linear-staircase 3', b'linearstaircase 3',
    b'exactstaircase', b's 3', b'2 3', b'--staircase 3', b'xstaircase 3', b'st\xc3\xa4ircase 3', b'=staircase 3',
    b'tail 3',
]

# Lines that are answered by nothing.
PASSED = [
    b'', b' ', b'\t', b'   ', b' \t \t', b'\r', b' \r', b'\t\r', b'#', b'# comment', b'#comment', b'##',
    b'# \x00 \xff', b'#\r', b'#\r\r', b'# a\rb', b'#frame 12', b'#admit 1 1 4 4 0', b'# ' + 126 * b'x',
    b'# ' + 127 * b'x', b'#' + 300 * b'y', b'#' + 129 * b' ', b'# ' + 140 * b'frame 1 ', 128 * b' ',
    127 * b' ' + b'\t', 128 * b'\t', 128 * b' ' + b'\r', 127 * b' ' + b'\r', b'#' + 200 * b'\r',
    b'#\xe2\x82\xac', b'#=== no mark',
]

# Lines of more bytes than one may have. A carriage return before the end is dropped before they are counted.
LONG = [
    129 * b' ', 129 * b'\t', 130 * b' ', 129 * b' ' + b'\r', 128 * b' ' + b'\r\r', b'frame 12' + 121 * b' ',
    121 * b' ' + b'frame 12', b'frame ' + 121 * b'0' + b'12', b'frame' + 122 * b' ' + b'12',
    b'dismiss 1' + 120 * b' ' + b'\r', 129 * b'x', 300 * b'x', b'frame ' + 123 * b'1', b'exact' + 124 * b' ',
    b'linear 3' + 121 * b' ', b'inquire 1' + 120 * b'\t', b' #' + 127 * b'x',
    b'admit 1 1 4 4 0 ' + 113 * b'#', 129 * b'\x00', 129 * b'\xff', 64 * b'\xc3\xa4' + b'x',
    b'frame 12' + 120 * b' ' + b'\rx', b'x ' * 70, 1000 * b'frame 12 ', b'hello' + 124 * b' ',
    b'\r' + 128 * b' ', b'linear 0' + 121 * b' ',
]


def padded(line, length):
    """The line with blanks behind it, up to a length."""
    return line + (length - len(line)) * b' '


# --- Recipes -----------------------------------------------------------------------------------------------


def begin(script):
    """Names a bound, maybe not as usual, and sets the frame of 12."""
    script.passed(script.source.pick([
        b'exact', b' exact', b'exact \t', b'exact\r', b'linear 3', b'\tlinear\t\t003 ', b'linear 64\r',
        padded(b'linear 2', 128), b'linear ' + 119 * b'0' + b'12',
    ]))
    script.call(b'frame 12', 'done')


def go_between(script):
    """A call in between, so that it is seen that the bench stays as it was."""
    put_in_or_take_out(script, Setting(script, [2, 3, 4, 6, 12], 4))


def unknown_words(source, first):
    """First words that are none of the four, from one of them on."""
    script = Script(source)
    begin(script)
    for line in (NO_WORDS[first:] + NO_WORDS[:first])[:50]:
        script.no_call(line, ANY_CALL)
        if source.below(3) == 0:
            go_between(script)
    for line in (b'exact', b'exact 1', b'linear', b'linear 3', b'linear 0', b'linear 65', b'linear x'):
        script.no_call(line, ANY_CALL)
    script.sweep()
    return script


def words_too_many(source):
    """Too few and too many words, also where a word is no number."""
    script = Script(source)
    begin(script)
    for first, most in (('frame', 1), ('admit', 5), ('dismiss', 1), ('inquire', 1)):
        for count in [*range(most), most + 1, most + 2, most + 9]:
            words = [source.pick(['1', '12', 'x', '-1', '4294967296', '#', '0']) for _ in range(count)]
            blank = source.pick([' ', '  ', '\t', ' \t'])
            script.no_call(blank.join([first] + words) + source.pick(['', ' ', '\r', '\t\r']), FORMS[first])
            if source.below(2):
                go_between(script)
    script.no_call(b'frame 12 # the frame', FORMS['frame'])
    script.no_call(b'admit 1 1 4 4', FORMS['admit'])
    script.no_call(b'admit 1 1 4 4 0 0', FORMS['admit'])
    script.no_call(b'admit two', FORMS['admit'])
    script.no_call(b'inquire 1 \r\r', FORMS['inquire'])
    script.no_call(b'frame 1 2', FORMS['frame'])
    script.sweep()
    return script


def words_for_numbers(source, first):
    """Words that are no numbers in each place, alone and with others behind them, from one of the words on."""
    script = Script(source)
    begin(script)
    for at, word in enumerate((NO_NUMBERS[first:] + NO_NUMBERS[:first])[:44]):
        if len(word) < 60 or at % 2:
            name = ['frame', 'dismiss', 'inquire'][at % 3]
            script.no_call(name.encode('ascii') + b' ' + word, number_for('H' if name == 'frame' else 'RANK'))
        place = at % 5
        words = [number.encode('ascii') for number in ['1'] + ROW]
        words[place] = word
        if source.below(2) and len(word) < 60:
            later = source.between(place, 4)
            words[later] = source.pick([b'x', b'-1', b'4294967296', words[later] if later == place else b'?'])
        script.no_call(b'admit ' + b' '.join(words), number_for(['RANK', 'C', 'D', 'T', 'J'][place]))
        if source.below(3) == 0:
            go_between(script)
    script.sweep()
    return script


def odd_spellings(source):
    """Calls with zeros in front, many blanks, tabs, carriage returns, and of up to 128 bytes."""
    script = Script(source)
    begin(script)
    for word, number in ODD_NUMBERS:
        script.call(b'frame ' + word, 'done' if number in (1, 8, 12) else 'refused 1 bad frame')
    script.call(b'frame 12', 'done')
    for turn in range(8):
        script.call(b'admit ' + source.pick([b'1', b'01', b'001']) + b' 01  04\t 0004 \t00', 'done')
        script.call(padded(b'inquire 1', 128), 'row 1 4 4 0 meets 1 points 1')
        script.call(b'\t' * 119 + b'inquire 1', 'row 1 4 4 0 meets 1 points 1')
        script.call(b'inquire ' + 119 * b'0' + b'1\r', 'row 1 4 4 0 meets 1 points 1')
        script.call(b'frame' + 121 * b'\t' + b'12', 'refused 2 standing rows')
        script.call(padded(b'frame 12', 128) + b'\r', 'refused 2 standing rows')
        script.call(b'inquire 0000000000000000000000000004294967295', 'refused 10 no rank')
        script.call(b' dismiss\t1 \r', 'done')
        for _ in range(2):
            script.passed(source.pick(PASSED))
        script.call(b'  inquire   00  ', 'refused 10 no rank')
        go_between(script)
        while script.count:
            script.call(b'dismiss ' + source.below(9) * b'0' + b'1', 'done')
    return script


def lines_passed_over(source):
    """Lines that are answered by nothing, before a bound is named and among calls; they count as lines."""
    script = Script(source)
    for line in PASSED:
        script.passed(line)
    script.no_call(b'frame 12', ANY_BOUND)
    begin(script)
    for line in PASSED:
        script.passed(line)
        if source.below(2):
            script.no_call(b'inquire', FORMS['inquire'])
        go_between(script)
    return script


def lengths(source, first):
    """Lines of 128 bytes and of 129 and more, calls and others, from one of the long ones on."""
    script = Script(source)
    begin(script)
    for line in (LONG[first:] + LONG[:first])[:16]:
        script.no_call(line, TOO_LONG)
        script.passed(source.pick(PASSED))
        go_between(script)
    script.no_call(128 * b'x', ANY_CALL)
    script.no_call(127 * b'\x00' + b'\x01', ANY_CALL)
    script.no_call(b'exact' + 123 * b' ', ANY_CALL)
    script.no_call(b'frame ' + 122 * b'1', number_for('H'))
    script.no_call(padded(b'frame 1 2', 128), FORMS['frame'])
    script.no_call(padded(b'admit 1 1 4 4 x', 128) + b'\r', number_for('J'))
    script.call(padded(b'frame 0', 128), 'refused 1 bad frame')
    script.sweep()
    return script


def before_a_bound(source, first, named=True):
    """Lines before a bound is named, from one of the words on; it is named in the end, or never."""
    script = Script(source)
    for line in (NO_WORDS[first:] + NO_WORDS[:first])[:18]:
        script.no_call(line, ANY_BOUND)
        if source.below(3) == 0:
            script.passed(source.pick(PASSED))
    for line in (b'frame 12', b'frame', b'frame x', b'admit 1 1 4 4 0', b'dismiss 1', b'inquire 1', b'inquire'):
        script.no_call(line, ANY_BOUND)
    for word in (b'0', b'65', b'000', b'066', b'128', b'256', b'257', b'4294967295', b'2147483649'):
        script.call(source.pick([b'linear ', b' linear\t', b'linear  ']) + word, 'refused 3 bad accuracy')
    for word in NO_NUMBERS[first % 40:][:12]:
        script.no_call(b'linear ' + word, number_for('K'))
    for line in (b'exact 1', b'exact x', b'exact exact', b'exact # steps', b'exact 0\r', b'exact \r\r'):
        script.no_call(line, 'exact')
    for line in (b'linear', b'linear 3 3', b'linear 0 0', b'linear x y', b' linear \r', b'linear 3 # tail'):
        script.no_call(line, 'linear K')
    for line in LONG[first % 20:][:4]:
        script.no_call(line, TOO_LONG)
    if named:
        begin(script)
        for line in (b'exact', b'linear 3', b'linear 0', b'linear', b'exact 1'):
            script.no_call(line, ANY_CALL)
        for _ in range(8):
            go_between(script)
        script.sweep()
    return script


def before_stairs(source, first):
    """Lines before a staircase is named: words near its own, forms, accuracies; from one of the words on."""
    script = Script(source)
    for line in (NO_STAIRS[first:] + NO_STAIRS[:first])[:16]:
        script.no_call(line, ANY_BOUND)
        if source.below(3) == 0:
            script.passed(source.pick(PASSED))
    for word in (b'0', b'65', b'000', b'066', b'128', b'256', b'257', b'4294967295', b'2147483649'):
        script.call(source.pick([b'staircase ', b' staircase\t', b'staircase  ']) + word, 'refused 3 bad accuracy')
    script.call(b'linear 65', 'refused 3 bad accuracy')
    for word in NO_NUMBERS[first:][:12]:
        script.no_call(b'staircase ' + word, number_for('K'))
    for line in (b'staircase', b'staircase 3 3', b'staircase 0 0', b'staircase x y', b' staircase \r', b'staircase 3 #'):
        script.no_call(line, FORMS['staircase'])
    script.no_call(b'linear staircase', number_for('K'))
    script.no_call(b'staircase linear', number_for('K'))
    script.no_call(b'linear staircase 3', FORMS['linear'])
    script.no_call(b'exact staircase 3', FORMS['exact'])
    for line in (b'staircase 3' + 118 * b' ', 118 * b' ' + b'staircase 3', b'staircase ' + 118 * b'0' + b'3'):
        script.no_call(line, TOO_LONG)
    script.passed(source.pick([
        b'staircase 3', b' staircase 64', b'staircase\t1 ', b'staircase 2\r', b'\tstaircase\t\t003 ',
        padded(b'staircase 2', 128), b'staircase ' + 116 * b'0' + b'12',
    ]))
    for line in (b'exact', b'linear 3', b'staircase 3', b'staircase 0', b'staircase', b'staircase x', b'staircase3'):
        script.no_call(line, ANY_CALL)
    script.call(b'frame 12', 'done')
    for _ in range(8):
        go_between(script)
    script.sweep()
    return script


def stairs_too_late(source):
    """Words near that of a staircase, and itself, when another bound is named already."""
    script = Script(source)
    begin(script)
    named = [b'staircase 3', b'staircase', b'staircase 0', b'staircase 65', b'staircase x', b' staircase\t64\r']
    for line in NO_STAIRS + named:
        script.no_call(line, ANY_CALL)
        if source.below(3) == 0:
            go_between(script)
    script.sweep()
    return script
