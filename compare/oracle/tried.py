"""Document 01's sheets, and sheets about the limit of depth of document 02 (P3), in the notation of tokens.py, each with its answers."""

# document 01, "Sheets tried", the starred ones included; those about the depth are below
TRIED = [
    ("", "end"),
    ("EOF", "end"),
    ("^n7 + 1 ^EOF", "tree, end"),
    ("a", "2, end"),
    (") a b EOF", "47, tree, end"),
    (") assert a EOF", "47, tree, end"),
    ("begin 1 ; continue ; end EOF", "tree, 17, end"),
    ("begin continue x", "17, 2, end"),
    ("::5 begin end EOF", "14, end"),
    ("class a EOF", "52, end"),
    ("a , EOF", "50, end"),
    ("begin LEXERR a end EOF", "1, 50, end"),
    ("if c then continue x y d then 2 end EOF", "tree, 17, end"),
    ("a ( b ) EOF", "tree, end"),
    ("a ^( b ) EOF", "tree, tree, end"),
    ("a ; b EOF", "tree, tree, end"),
    ("a b EOF", "tree, tree, end"),
    ("local a = 1 EOF", "tree, end"),
    ("( a ) = 1 EOF", "tree, end"),
    ("( a ) EOF", "tree, end"),
]

# a depth of 37: of each kind of reading that counts (02 names the signs and `a =`), and of all three in turn, the last sheet that is read and the first that is
# stopped; readings that are finished; groups that vanish in a pattern, and a tree whose canonical tokens are one deeper than what was read; and a
# resynchronization that tries what is too deep
DEPTHS = [
    ("- " * 36 + "a EOF", "tree, end"),
    ("- " * 37 + "a EOF", "stopped 62"),
    ("a = " * 36 + "a EOF", "tree, end"),
    ("a = " * 37 + "a EOF", "stopped 62"),
    ("loop " * 37 + "end " * 37 + "EOF", "tree, end"),
    ("loop " * 38 + "end " * 38 + "EOF", "stopped 62"),
    ("begin a = - " * 9 + "a " + "end " * 9 + "EOF", "tree, end"),
    ("begin a = - " * 9 + "- a " + "end " * 9 + "EOF", "stopped 62"),
    ("loop " + "a = a ; loop end ; " * 38 + "end EOF", "tree, end"),
    ("( " * 36 + "a " + ") " * 36 + "= a EOF", "tree, end"),
    ("( " * 37 + "a " + ") " * 37 + "= a EOF", "stopped 62"),
    ("loop " * 35 + "for a , b in c do end " + "end " * 35 + "EOF", "tree, end"),
    ("loop " * 36 + "for a , b in c do end " + "end " * 36 + "EOF", "tree, end"),
    ("loop " * 37 + "for a , b in c do end " + "end " * 37 + "EOF", "stopped 62"),
    (") " + "- " * 36 + "a b EOF", "47, tree, end"),
    (") " + "- " * 37 + "a b EOF", "stopped 62"),
]
