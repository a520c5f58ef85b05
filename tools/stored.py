"""The sheets of the program `replay` that were written by hand, in the notation of compare/oracle/tokens.py; make_sheets.py makes its input of them and of
those of compare/oracle/tried.py."""

# every place of these is replaced by a lexer error in turn
DAMAGED = [
    "a + b ; c EOF",
    "begin a ; continue end b EOF",
    "loop begin ) ; a end ; break end EOF",
    "if a then b elif c then d else f end EOF",
    "fun f ( a , b = 1 , ... c ) a end EOF",
    "let ( a , ... b ) = f ( 1 , x . y [ 2 ] ) EOF",
    "for a , b in c do ::1 while d do continue ::1 end end EOF",
    "{ a = 1 , [ b ] = 2 , let c = 3 } ; assert not a EOF",
]

# request P1 of document 02: sheets that come near the numbers 24 (`...` nested), 28 (the parameters' closing) and 32 (their order)
NUMBERS = [
    "a ... EOF",
    "a ... ... EOF",
    "a ... ... ... EOF",
    "... ... EOF",
    "( a ... ) ... EOF",
    "( ( a ... ) ... ) ... EOF",
    "( ... ) ... EOF",
    "( a ... ... ) EOF",
    "( ... ) ... = a EOF",
    "( a ... ) ... = b EOF",
    "a ... ... = b EOF",
    "a , b ... ... = c EOF",
    "let ( ( a ... ) ... , b ) = c EOF",
    "for a ... ... in b do end EOF",
    "for ( a ... ) ... in b do end EOF",
    "a ( b ... ... ) EOF",
    "a ( b ... ) ... EOF",
    "a [ b ... ] ... EOF",
    "{ a = b ... ... } EOF",
    "- a ... ... EOF",
    "a * b ... ... EOF",
    "begin a ... ... ; b end EOF",
    "fun ( a",
    "fun ( EOF",
    "fun ( a EOF",
    "fun ( a , EOF",
    "fun ( a ... EOF",
    "fun ( a = 1 EOF",
    "fun ( end EOF",
    "fun ( a end EOF",
    "fun ( a , end EOF",
    "fun ( a b ) end EOF",
    "fun ( ] end EOF",
    "fun ( a ] end EOF",
    "fun ( a } end EOF",
    "fun ( a ; end EOF",
    "fun ( a ... ] end EOF",
    "fun ( a ... ... ) end EOF",
    "fun ( a = 1 ] end EOF",
    "fun ( a LEXERR ) end EOF",
    "fun ( a ) ) end EOF",
    "begin fun ( a ; b ) end ; c end EOF",
    "fun ( a = 1 , b ) end EOF",
    "fun ( a = 1 , b = 2 ) end EOF",
    "fun ( a = b = 1 , c ) end EOF",
    "fun ( a = 1 , ) end EOF",
    "fun ( a = 1 , , b ) end EOF",
    "fun ( a = 1 b ) end EOF",
    "fun ( a = 1 , let b ) end EOF",
    "fun ( a = 1 , b ... ) end EOF",
    "fun ( a = ( 1 ) , b ) end EOF",
    "fun ( a = ( 1 , 2 ) ) end EOF",
    "fun ( a = ... ... ) end EOF",
    "fun ( a = let b = 1 , c ) end EOF",
    "fun ( a = fun ( b = 1 ) end , c ) end EOF",
    "fun ( a , b = 1 , c ) end EOF",
    "fun f ( a , b = 1 , var c ) end EOF",
    "begin fun ( a = 1 , let b ) end ; c end EOF",
]

# request P2: where a `break` or `continue` stands, each clause on both sides
LABELS = [
    # without a label: a break in a loop or block, a continue in a loop, labelled or not; a branch of an if is no block
    "loop break end EOF",
    "while a do break end EOF",
    "for a in b do break end EOF",
    "begin break end EOF",
    "if a then break end EOF",
    "if a then b elif c then d else break end EOF",
    "loop continue end EOF",
    "::0 while a do continue end EOF",
    "::0 for a in b do continue end EOF",
    "begin continue end EOF",
    "if a then continue end EOF",
    "a = ::0 begin break end EOF",
    "a = ::0 begin continue end EOF",
    # one that is not the nearest
    "loop if a then continue end end EOF",
    "loop begin continue end end EOF",
    "for a in b do begin if c then continue else d end end end EOF",
    "begin if a then break end ; b end EOF",
    "while a do b ; begin loop end ; continue end end EOF",
    # with a label: a break to a loop or block that has it, a continue to a loop that has it, any that stands round
    "::0 loop break ::0 end EOF",
    "::1 loop break ::0 end EOF",
    "loop break ::0 end EOF",
    "::0 while a do continue ::0 end EOF",
    "::0 for a in b do continue ::1 end EOF",
    "a = ::0 begin break ::0 end EOF",
    "a = ::1 begin break ::0 end EOF",
    "a = ::0 begin continue ::0 end EOF",
    "if a then break ::0 end EOF",
    "::0 loop ::1 loop break ::0 end end EOF",
    "::0 loop ::1 loop continue ::2 end end EOF",
    "::0 loop a ( ::0 begin continue ::0 end ) end EOF",
    "a = ::0 begin ::1 loop continue ::0 end end EOF",
    "::4294967295 loop break ::4294967295 end EOF",
    "::4294967295 loop break ::4294967294 end EOF",
    # one that has ended, in this statement or in the one before, or that comes after
    "if a then ::0 loop end ; break ::0 end EOF",
    "begin loop end ; continue end EOF",
    "::0 loop break ::0 end ; ::1 loop break ::0 end EOF",
    "::0 loop if a then continue ::1 end ; ::1 loop end end EOF",
    # a loop's condition, what it runs over and its pattern stand outside of it
    "while begin continue end do end EOF",
    "while begin break end do end EOF",
    "::0 while if a then break ::0 end do end EOF",
    "::0 loop while if a then break ::0 end do end end EOF",
    "for a in if b then continue end do end EOF",
    "::0 for a in if b then break ::0 end do c end EOF",
    "loop for a in if b then continue end do end end EOF",
    "for a [ if b then break end ] in c do end EOF",
    "::0 loop for a [ if b then break ::0 end ] in c do end end EOF",
    # a function's body starts with nothing round it; its default and its target stand where it stands
    "fun ( ) break end EOF",
    "loop fun ( ) break end end EOF",
    "::0 loop fun ( ) if a then continue ::0 end ; b end end EOF",
    "a = ::0 begin fun ( ) break ::0 end end EOF",
    "loop fun ( ) loop break end end end EOF",
    "fun ( ) begin break end ; ::0 while a do continue ::0 end end EOF",
    "fun ( a = if b then break end ) loop end end EOF",
    "loop fun ( a = if b then break end ) c end end EOF",
    "loop fun ( ) fun ( a = begin continue end ) end end end EOF",
    "::0 loop fun a [ if b then continue ::0 end ] ( ) end end EOF",
    "fun a [ if b then continue ::0 end ] ( ) ::0 loop end end EOF",
    # a value stands where its break stands
    "loop break begin continue end end EOF",
    "begin break begin continue end end EOF",
    "a = ::0 begin break if b then break ::0 end end EOF",
    "if a then break ::0 a ( ::0 begin end ) end EOF",
    "fun ( ) return begin break end end EOF",
    # in any part of an expression
    "loop { a = - begin continue end , [ if b then break end ] = ( c , begin continue end ) } end EOF",
    "{ a = - begin continue end , [ if b then break end ] = c } EOF",
    # the first of more; return is none
    "if a then break elif b then continue ::0 end EOF",
    "if a then continue ::0 elif b then break end EOF",
    "if a then break if b then continue ::1 end end EOF",
    "if a then loop break end elif b then break ::0 else continue end EOF",
    "fun ( ) return end ; begin return a end ; if a then return end EOF",
    # 65 before any: a tree that no clean reading gives, read before an error
    "if a then break end , ) EOF",
    "loop continue end ; begin continue ::0 end , ) EOF",
]

# request P4: expressions that can be a pattern, and such as come near and cannot; each stands in each of the places where one is asked for, but a function's
# target, which is an atom and a path without calls
CAN_BE_PATTERN = [
    "a", "( a )", "( ( a ) )", "( let a )", "( var ( local a ) )", "( nonlocal ( a ) )",
    "...", "a ...", "( a ... ) ...", "( let a ) ...", "( ... )",
    "a , b", "( a , )", "( a , b )", "( a , ( b , c ) , ( let d , ) ) , f ...", "( let a , b ) , c",
    "a . b", "a [ b ]", "a . b . c", "a [ b ] [ c ]", "a . b [ c ]", "a [ b ] . c", "a ( ) . b", "a ( b , c ) [ d ]", "a { b = c } . d",
    "1 . a", "nil [ a ]", "( a + b ) . c", "( a , b ) [ c ]", "( a = b ) . c", "( ) . a", "a [ b = c ]", "a [ b , c ]", "a [ fun ( ) end ]", "a [ - b . c ]",
    "( a ) , b . c [ 1 ] , ( let d ) , f [ g . h ] ...",
]
CANNOT_BE_PATTERN = [
    "1", "nil", "( )", "( 1 )", "( let 1 )", "1 ...", "- a", "not a . b", "a + b", "( a and b )", "( ( a ) + b )",
    "a ( )", "a . b ( )", "a [ b ] ( c )", "a { }", "a . b { c = d }", "( a ( ) )", "( let a . b ( ) ) ...",
    "1 , a", "a , 1", "a , ( ) , b", "( 1 , )", "( a , - b )", "( a , ( b , c ( ) ) , d )", "( let a , 1 ) , b", "( a . b , c [ d ] , f ( ) )", "( a + b , c . d )",
    "( a = b )", "( let a = b )", "( a += b )", "{ }", "{ a = b }", "begin a end", "if a then b end", "fun ( ) end", "fun a ( ) end", "a , fun b . c ( ) end",
    "- a . b", "a . b + c . d", "( - a ) ...", "( begin a end ) ...",
]
PATTERN_PLACES = ["%s = z EOF", "let %s = y = z EOF", "%s += z ; y EOF", "for %s in z do end EOF", "for var %s in z do y end EOF", "begin %s = z ; y end EOF"]
TARGETS = [
    "a", "a . b", "a [ b ]", "a . b [ c ] . d", "1 . a", "nil [ a ]", "s1 . a", "true [ a ] [ b ]", "a [ b , ( ) ] . c", "a [ fun b ( ) end ]",
    "1", "nil", "true", "false", "s1", "f0", "a ...", "a . 1", "a [ b", "- a", "a { }", "...", "a , b", "a = b",
]

# the binary operators by their levels, 1 to 10
LEVELS = [row.split() for row in ("* / %", "+ -", "<< >>", "&", "^^", "|", "< > <= >=", "== !=", "and", "or")]

# request P1: operators of many levels in the places where an expression stands, the last ones before errors that wait
PLACES = [
    "a or b and c == d < e | f ^^ g & h << i + j * k EOF",
    "a * b + c << d & e ^^ f | g < h == i and j or k EOF",
    "- a * b EOF",
    "a * - b + c EOF",
    "not a == b and c EOF",
    "- ( a + b ) * c EOF",
    "~ a [ b + c * d ] | e EOF",
    "- not + ~ a - b EOF",
    "( a - ( b - c ) ) * d EOF",
    "a - b ... * c EOF",
    "( a + b * c ) . d EOF",
    "( a - b * c ) [ d * e + f ] ( g or h and i ) EOF",
    "a ( b - c - d , e * f + g ) EOF",
    "{ a = b + c * d , [ e * f + g ] = h - i - j } EOF",
    "a { b = c - d - e } EOF",
    "( a , b - c * d ) EOF",
    "fun ( a = b + c * d ) e - f - g end EOF",
    "fun ( ) return a * b + c end EOF",
    "if a and b or c then d + e * f elif not a == b then - c * d else e | f & g end EOF",
    "while a < b == c do d + e * f end EOF",
    "for a in b - c - d do e * f + g end EOF",
    "loop break a + b * c end EOF",
    "begin a ; b - c * d end EOF",
    "assert a | b ^^ c EOF",
    "a = b = c - d - e EOF",
    "a [ b - c * d ] += e * f - g EOF",
    "( a + b * c ) . d = e EOF",
    "( a - b - c ) [ d or e and f ] . g , h = i EOF",
    "( let a [ b and c or d ] , e ) = f EOF",
    "for a [ b * c + d ] , ( e + f * g ) . h in i do end EOF",
    "fun a [ b - c - d ] ( ) end EOF",
    "fun a [ b + c * d ] . e ( f = g * h + i ) end EOF",
    "begin a - b * c ; continue ; x end EOF",
    "begin a - b - c ; ) ; d * e + f end EOF",
    "begin a - b * c ; d + ; ; e - f - g end EOF",
    "loop a or b and c ; let d ; break e * f - g end EOF",
    "if a + b * c then continue x y d - e - f then g * h + i end EOF",
    "- begin ) ; a * b + c end * d EOF",
    "a [ begin ) ; b - c * d end ] = e - f - g EOF",
    "( begin a * b + c ; continue ; d ) . e = f - g * h EOF",
    "for a [ begin ) ; b + c * d end ] in e - f - g do h end EOF",
    "fun a [ begin ) ; b * c - d end ] ( ) e + f * g end EOF",
    "fun ( a = begin let b ; c - d * e end ) f end EOF",
    "{ a = begin ] ; b - c * d end , [ e * f + g ] = h } EOF",
]


def patterns():
    """Each of these expressions in each of the places where a pattern is asked for, and functions with these targets."""
    sheets = [place % expr for expr in CAN_BE_PATTERN + CANNOT_BE_PATTERN for place in PATTERN_PLACES]
    return sheets + ["fun %s ( ) end ; z EOF" % target for target in TARGETS]


def mixed():
    """Sheets with two operators: of one level, and of two neighbouring ones, in both orders."""
    pairs = [(names[0], names[-1]) for names in LEVELS]
    for names, above in zip(LEVELS, LEVELS[1:]):
        pairs += [(names[0], above[0]), (above[-1], names[-1])]
    return ["a %s b %s c EOF" % pair for pair in pairs]
