$( A small catalogue: implication, quantifiers and equality, as a keeper might have it, with some slips left in. Run

       janorembe check examples/catalogue.mm
       janorembe frame examples/catalogue.mm ax-5 00417 417
$)

$( ---- Symbols ---- $)

$c ( ) -> A. = wff |- setvar $.
$v ph ps ch x y z $.

wph $f wff ph $.
wps $f wff ps $.
wch $f wff ch $.
vx $f setvar x $.
vy $f setvar y $.
vz $f setvar z $.

$( ---- Formulas ---- $)

wi $a wff ( ph -> ps ) $.
wal $a wff A. x ph $.
weq $a wff x = y $.

$( ---- Implication ---- $)

ax-1 $a |- ( ph -> ( ps -> ph ) ) $.
ax-2 $a |- ( ( ph -> ( ps -> ch ) ) -> ( ( ph -> ps ) -> ( ph -> ch ) ) ) $.

${
  $( Hypotheses of a group end with it. $)
  min $e |- ph $.
  maj $e |- ( ph -> ps ) $.
  ax-mp $a |- ps $.
$}

${
  $( Two entries of the stock list. They are two labels: a label is bytes, not a number. $)
  00417.1 $e |- ph $.
  00417 $p |- ( ps -> ph ) $= wph wps wph wi 00417.1 wph wps ax-1 ax-mp $.
$}
417 $p |- ( ph -> ph ) $= ? $.

$( ---- Quantifiers ---- $)

${
  $( x and ph must be kept apart: x must not occur in what is put for ph. $)
  $d x ph $.
  ax-5 $a |- ( ph -> A. x ph ) $.
$}

${
  $d x y $.
  $( z is named in a $d but not in the statement: it is an optional variable. $)
  $d y z $.
  ax-9 $a |- ( A. x x = y -> ph ) $.
$}

$( ---- Slips ---- $)

$( A variable of a group that was closed. $)
${
  $v u $.
  vu $f setvar u $.
  eqid $a |- u = u $.
$}
eqsym $a |- ( x = u -> u = x ) $.

$( A label that is borne already. $)
ax-1 $a |- ( ph -> ph ) $.

$( A variable kept apart from itself, and a constant in a $d. $)
$d x y x $.
$d ph -> $.

$( A variable with no $f, and a statement that begins with a variable. $)
$v w $.
eqw $a |- w = w $.
bare $a ph $.

$( A symbol declared twice, a second $f, and a $c inside a group. $)
$c -> $.
vx2 $f setvar x $.
${ $c E. $. $}
