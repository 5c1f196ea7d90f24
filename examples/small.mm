$c wff |- ( ) -> $.
$v x y $.
wx $f wff x $.
wy $f wff y $.
wi $a wff ( x -> y ) $.
${
  $d x y $.
  min $e |- x $.
  00417 $a |- ( y -> x ) $.
$}
wx $a wff ( x ) $.
417 $a |- ( q -> x ) $.
