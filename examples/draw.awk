# Draws both displays as they stand at the end of moment `at`, or of the last one: awk -v at=3 -f draw.awk OUTPUT
/^@/ { late = at != "" && substr($1, 2) + 0 > at + 0 }
/^@|^END / || late { next }
{ row[$1] = $2 == "-" ? "" : substr($0, length($1) + 1) }
END {
  edge = sprintf("+%79s+", ""); gsub(/ /, "-", edge); print edge
  for (i = 1; i <= 7; i++) printf "|%-39s|%-39s|\n", row["L" i], row["R" i]
  printf "|%-39s|%-39s|\n%s\n", row["FL"], row["MW"] row["MC"] row["AU"], edge
  for (i = 1; i <= 18; i++) printf "|%-79s|\n", row[sprintf("S%02d", i)]
  print edge
}
