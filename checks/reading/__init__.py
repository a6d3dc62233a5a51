"""A second reading of what `pinch` reads, by the rules of docs/FORMATS.md and docs/DECISIONS.md, which shares nothing
with the program: the rows of a CSV text (rows), the grammars of cases and sites (case), networks (network), reports
(report) and price studies (study), the words of a command (words); and of what it answers, as far as that is one text:
`targets` and `curves` whole, the profiles of `site` (targets), `audit` whole (audit), and how each other answer begins
(words). Fractions are Python's."""
