"""Closed statements with the answers that request P2 of document 02 gives them, on which compare/labels tries its own judgement.

Sheets of one statement are in the notation of oracle/tokens.py. Record numbers are counted by hand from docs/TREE.md: `if a then break end` is Identifier 0, List 1,
Absent 2, Break 3, and then the nodes that these stand in.
"""
from trees import A_DEFAULT, LABELLED, a_list, a_name, begin_end, block, body, function, if_then, node

LEAVE = node("Break", node("Absent"))

FINE = [
    "a", "fun ( ) return end", "if a then return end",
    # each jump in each loop and block, with no label and with the one that stands there
    "loop break end", "loop continue end", "while a do break end", "while a do continue end", "for a in b do break end", "for a in b do continue end", "begin break end",
    "::1 loop break ::1 end", "::1 loop continue ::1 end", "::1 while a do break ::1 end", "::1 while a do continue ::1 end", "::1 for a in b do break ::1 end",
    "::1 for a in b do continue ::1 end", "( ::1 begin break ::1 end )", "::0 loop break ::0 end", "::4294967295 loop break ::4294967295 end",
    # no label, and a label there
    "::0 loop break end", "::1 for a in b do continue end", "( ::1 begin break end )",
    # not the nearest one
    "::1 loop ::2 loop break ::1 end end", "::1 loop loop continue ::1 end end", "( ::1 begin loop break ::1 end end )", "::1 loop ( ::1 begin continue ::1 end ) end",
    "loop begin continue end end", "loop ( ::1 begin continue end ) end",
    # through branches, results and lists
    "loop if a then continue end end", "begin if a then break end end", "( ::1 begin if a then break ::1 end ; b end )", "begin if a then else break end ; loop end end",
    # what stands beside a loop's list stands in what is round the loop
    "loop while if a then break end do end end", "::1 loop for a in if b then continue ::1 end do end end", "loop for a [ if b then continue end ] in c do end end",
    # a function's own loops and blocks; a default and a target stand where the function stands
    "fun ( ) loop break end end", "loop fun ( ) begin break end end end", "loop fun ( a = if b then break end ) end end",
    "::1 loop fun ( a = if b then continue ::1 end ) return end end", "loop fun a [ if b then break end ] ( ) end end",
    # a break's value
    "loop break if a then break end end", "begin break ( ::1 begin break ::1 end ) end", "( ::1 begin break if a then break ::1 end end )",
    # more than 37 deep
    "loop " + "begin " * 60 + "continue" + " end" * 61,
]

# the number, the record number and the sheet
OFFENDERS = [
    # nothing stands there; a branch is no block
    (68, 3, "if a then break end"), (68, 2, "if a then continue end"), (67, 3, "if a then break ::1 end"), (67, 2, "if a then continue ::1 end"),
    (68, 10, "if a then else break end"), (68, 7, "if a then if b then break end end"),
    # a continue needs a loop
    (68, 1, "begin continue end"), (68, 1, "( ::1 begin continue end )"), (67, 1, "( ::1 begin continue ::1 end )"), (67, 1, "( ::1 begin loop continue ::1 end end )"),
    # another label, or none there
    (67, 2, "loop break ::1 end"), (67, 2, "loop break ::0 end"), (67, 2, "::2 loop break ::1 end"), (67, 2, "::1 loop break ::0 end"), (67, 1, "::2 loop continue ::1 end"),
    (67, 2, "begin break ::1 end"), (67, 2, "( ::2 begin break ::1 end )"),
    # a loop's condition, what it runs over, its pattern
    (68, 3, "while if a then break end do end"), (68, 2, "while if a then continue end do end"), (67, 2, "::1 while if a then continue ::1 end do end"),
    (67, 2, "::1 loop ::2 while if a then continue ::2 end do end end"), (68, 4, "for a in if b then break end do end"),
    (67, 3, "::1 for a in if b then continue ::1 end do end"), (68, 6, "for a [ if b then break end ] in c do end"), (68, 3, "for a [ if b then continue end ] . c in d do end"),
    # a function's body, its default, and a default in a body
    (68, 6, "loop fun ( ) break end end"), (67, 5, "::1 loop fun ( ) continue ::1 end end"), (68, 9, "begin fun ( ) break end end"),
    (68, 4, "fun ( a = if b then break end ) end"), (68, 4, "fun ( a = if b then break end ) loop end end"),
    (68, 11, "loop fun ( ) fun ( a = if b then break end ) end end end"),
    # a break's value and its break
    (67, 3, "loop break ( ::1 begin break ::2 end ) end"), (68, 5, "if a then break if b then break end end"), (68, 4, "if a then break ::1 if b then continue end end"),
    (67, 9, "if a then break ::1 ( ::1 begin end ) end"), (68, 5, "if a then return if b then break end end"),
    # behind a loop, and beside one
    (68, 5, "begin loop end ; continue end"), (67, 7, "if a then ::1 loop end ; break ::1 end"), (68, 15, "if a then loop break end elif b then break end"),
    (67, 8, "loop while a do break end ; break ::1 end"), (67, 10, "begin loop end ; if a then break ::1 end end"),
    # the first of two
    (67, 3, "if a then break ::1 elif b then continue end"), (68, 2, "if a then continue elif b then break ::1 end"),
    # more than 37 deep
    (68, 3, "( " * 60 + "if a then break end" + " )" * 60), (68, 178, "begin " * 60 + "continue" + " end" * 60),
]

# trees that no clean reading gives, some with what would be an offender
NO_STATEMENTS = [
    LEAVE, node("Continue"), a_name(0), body([]), node("Expression"), node("Expression", LEAVE), node("Expression", LABELLED), node("Loop", body([]), body([])),
    node("Loop", a_list()), node("Expression", begin_end([], a_name(0), node("Continue"))), node("Expression", if_then(a_name(0), block([], a_name(0), LEAVE))),
    node("Expression", function(0, block([], control=LEAVE), default=[A_DEFAULT, A_DEFAULT])), node("Loop", body([], node("Continue", value=2**32 + 1)), value=2**32 + 1),
    node("Loop", body([], node("Return", node("Absent"), value=1))), node("Loop", body([], node("Break"))), node("Expression", begin_end([node("Expression", a_name(0))])),
]
