# Tells what came on the buses of a record: awk -f words.awk RECORD
# A line for each bus, label, SDI, SSM and parity: the words, the moments with more than one, the longest silence.
function worth(digit) { return index("0123456789abcdef", digit) - 1 }
function turned(digit) { return index("084c2a6e195d3b7f", digit) - 1 }
$1 == "T" { moment++ }
$1 == "W" {
  word = tolower($3); ones = 0
  for (i = 1; i <= 8; i++) { digit[i] = substr(word, i, 1); ones += substr("0112122312232334", worth(digit[i]) + 1, 1) }
  ssm = int(worth(digit[1]) / 2) % 4
  key = sprintf("%3d   %03o  %3d   %d%d  %-6s", $2, 16 * turned(digit[8]) + turned(digit[7]), worth(digit[6]) % 4, int(ssm / 2), ssm % 2, ones % 2 ? "odd" : "even")
  if (!words[key]++) order[++kinds] = key
  else if (moment == last[key]) { if (!again[key, moment]++) twice[key]++ }
  else if (moment - last[key] > silence[key]) silence[key] = moment - last[key]
  last[key] = moment
}
END {
  print "bus label  sdi  ssm  parity  words  twice  silence"
  for (i = 1; i <= kinds; i++) printf "%s %6d %6d %8d\n", order[i], words[order[i]], twice[order[i]], silence[order[i]]
  printf "%d moments\n", moment
}
