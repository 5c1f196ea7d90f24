//! `explain`: the rule behind a kind or a number, a smallest wrong text and a mended one.

use crate::json::Object;
use crate::out::Out;
use crate::say;
use crate::status::Status;
use crate::words::Topic;
use std::io;

/// A rule in words; the texts are those that are tried in the tests.
pub struct Rule {
    pub rule: &'static str,
    pub wrong: &'static str,
    pub mended: &'static str,
}

/// The kinds of diagnostic, from 1.
pub const KINDS: [Rule; 13] = [
    Rule {
        rule: "A label belongs to the first statement of the text that bears it, even if that statement is wrong itself. A
later statement with the same label declares nothing, has no frame and is not checked further. Labels
are compared byte for byte: 417 and 0417 are two labels.",
        wrong: "$c c $. a $a c $. a $a c c $.",
        mended: "$c c $. a $a c $. b $a c c $.",
    },
    Rule {
        rule: "A symbol must be declared before it is used, by a $c or $v that is active: outside all groups, or for a $v
in the same group or one around it. At the end of its group a variable is no longer active.",
        wrong: "a $a c $.",
        mended: "$c c $. a $a c $.",
    },
    Rule {
        rule: "The first symbol of a $e, $a or $p is its typecode, and a typecode is a constant.",
        wrong: "$c c $. $v x $. f $f c x $. a $a x $.",
        mended: "$c c $. $v x $. f $f c x $. a $a c x $.",
    },
    Rule {
        rule: "A variable in a $e, $a or $p needs an active $f that gives its typecode. A $f with an error does not count,
nor does one in a group that was closed.",
        wrong: "$c c $. $v x $. a $a c x $.",
        mended: "$c c $. $v x $. f $f c x $. a $a c x $.",
    },
    Rule {
        rule: "A symbol must not have the name of a label, wherever in the text the label stands. The symbol is declared
all the same.",
        wrong: "$c a $. a $a a $.",
        mended: "$c c $. a $a c $.",
    },
    Rule {
        rule: "A symbol is declared once. Outside groups the first $c or $v of the text counts. A $v in a group may use the
name again only after the group of an earlier one was closed.",
        wrong: "$c x $. $v x $.",
        mended: "$c x $. $v y $.",
    },
    Rule {
        rule: "A $d names variables; a constant is always apart from everything.",
        wrong: "$c c $. $v x $. $d x c $.",
        mended: "$v x y $. $d x y $.",
    },
    Rule {
        rule: "A $d names each variable once: no variable can be kept apart from itself.",
        wrong: "$v x $. $d x x $.",
        mended: "$v x y $. $d x y $.",
    },
    Rule {
        rule: "The first symbol of a $f is a typecode, and a typecode is a constant.",
        wrong: "$v x y $. f $f y x $.",
        mended: "$c c $. $v x $. f $f c x $.",
    },
    Rule {
        rule: "The second symbol of a $f is the variable that gets the typecode.",
        wrong: "$c c $. f $f c c $.",
        mended: "$c c $. $v x $. f $f c x $.",
    },
    Rule {
        rule: "A variable has at most one $f at a time. A $f in a group ends with the group, and another may follow.",
        wrong: "$c c $. $v x $. f $f c x $. g $f c x $.",
        mended: "$c c $. $v x y $. f $f c x $. g $f c y $.",
    },
    Rule {
        rule: "A variable of a group must not have the name of a constant that is declared further down, outside groups. It
is not declared.",
        wrong: "${ $v x $. $} $c x $.",
        mended: "${ $v x $. $} $c y $.",
    },
    Rule {
        rule: "Constants are declared outside groups. A $c inside one declares nothing, and is reported once.",
        wrong: "${ $c x $. $}",
        mended: "$c x $. ${ $}",
    },
];

/// The numbers, from 1.
pub const NUMBERS: [Rule; 11] = [
    Rule {
        rule: "A text has at most 16,777,216 bytes. Of a longer one nothing is read.",
        wrong: "a text of 16,777,217 bytes",
        mended: "two texts, each of which declares what it uses",
    },
    Rule {
        rule: "The core works in memory that it is lent: 64 bytes for each token, and 64 more. This tool lends what is
needed, or says how much that is, so the number is for those who call the core themselves.",
        wrong: "a call with 31 words of work area on a text of one token",
        mended: "a call with 32 words",
    },
    Rule {
        rule: "Every byte of a text is a printable ASCII character or white space (tab, newline, form feed, return, blank),
in comments too.",
        wrong: "$( caf<e9> $)",
        mended: "$( cafe $)",
    },
    Rule {
        rule: "A comment runs from the token $( to the next token that is exactly $). White space stands around both. In
between neither $( nor $) may occur, not even within a longer token (number 5).",
        wrong: "$( a remark",
        mended: "$( a remark $)",
    },
    Rule {
        rule: "A token stands where the grammar has no place for it. Statements are: $c and $v with one or more symbols, $d
with two or more; a label, then $f with two, $e or $a with one or more, or $p with one or more, $= and a
proof. Each ends in $. and a symbol has no $ in it. ${ and $} stand alone, and each $} closes a ${. In a
comment a token with $( or $) in it has no place, but for the $) that ends it.",
        wrong: "$c $.",
        mended: "$c c $.",
    },
    Rule {
        rule: "The text ends in the middle of a statement, or a group is still open. The place is the end of the text; the
hint names what is not closed.",
        wrong: "${ $c c $.",
        mended: "${ $c c $. $}",
    },
    Rule {
        rule: "A frame has at most 4,095 variables, mandatory and optional. The place is the first assertion with more.",
        wrong: "an assertion after a $d of 4,096 variables",
        mended: "the $d in a group that is closed before the assertion",
    },
    Rule {
        rule: "The frame stream does not fit the memory that the core is lent. This tool lends what is needed, or says how
much that is, so the number is for those who call the core themselves.",
        wrong: "a call with 115 bytes for a frame stream of 116",
        mended: "a call with 116 bytes",
    },
    Rule {
        rule: "The diagnostics stream does not fit the memory that the core is lent; see number 8.",
        wrong: "a call with 17 bytes for one diagnostic",
        mended: "a call with 18 bytes",
    },
    Rule {
        rule: "Look-up walks a whole frame stream first. A record is badly framed if fewer than 4 bytes are left for its length, the
length is under 2 or more than is left, its kind is not 1 to 4, its label does not lie inside it, or it is of kind 1 and
has no stub string.",
        wrong: "a stream of 3 bytes",
        mended: "the whole stream, as `janorembe streams` writes it",
    },
    Rule {
        rule: "No record of the frame stream bears the label. Labels are compared byte for byte. A $e has no frame, nor has a
statement with an error.",
        wrong: "the label 0417 where only 417 stands",
        mended: "the label 417",
    },
];

/// A message for each number, as the list shows it.
const SHORT: [&str; 11] = [
    "the text is too long",
    "the work area is too short",
    "a byte that is neither printable nor white space",
    "a comment that is never closed",
    "a token that is not allowed where it stands",
    "the text ends inside a statement or an open group",
    "a frame with over 4,095 variables",
    "the frame buffer is too short",
    "the diagnostics buffer is too short",
    "look-up: a record is badly framed",
    "look-up: no such label",
];

pub fn explain(out: &mut Out, asked: Option<(Topic, u32)>) -> io::Result<Status> {
    match asked {
        Some((topic, number)) => one(out, topic, number)?,
        None if out.json() => {
            (1..=13).try_for_each(|number| one(out, Topic::Kind, number))?;
            (1..=11).try_for_each(|number| one(out, Topic::Number, number))?;
        }
        None => list(out)?,
    }
    Ok(Status::Clean)
}

fn list(out: &mut Out) -> io::Result<()> {
    out.line("kinds of error (the text is read; a statement with an error has no frame):")?;
    for (place, name) in say::NAMES.iter().enumerate() {
        out.line(&format!("  kind {:<4} {name}", place + 1))?;
    }
    out.line("numbers (the text is refused, or a label is not found):")?;
    for (place, short) in SHORT.iter().enumerate() {
        out.line(&format!("  number {:<2} {short}", place + 1))?;
    }
    Ok(())
}

fn one(out: &mut Out, topic: Topic, number: u32) -> io::Result<()> {
    let place = number as usize - 1;
    let (word, name, rule) = match topic {
        Topic::Kind => ("kind", say::NAMES[place], &KINDS[place]),
        Topic::Number => ("number", SHORT[place], &NUMBERS[place]),
    };
    if out.json() {
        let object = Object::of("explained").put(word, number).text("name", name);
        let object = object.text("rule", &rule.rule.replace('\n', " "));
        return out.line(&object.text("wrong", rule.wrong).text("mended", rule.mended).end());
    }
    out.line(&format!("{word} {number}: {name}\n"))?;
    rule.rule.lines().try_for_each(|line| out.line(&format!("  {line}")))?;
    out.line(&format!("\n  wrong:   {}\n  mended:  {}", rule.wrong, rule.mended))
}
