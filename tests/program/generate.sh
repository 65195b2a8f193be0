# Images that are made.

# Words of `generate`, and what is printed. No file is read or written.
while IFS='|' read -r words text; do
    begin "the words $words"
    ends 0 "$text" $words
done << END
generate 7 0|done pages=0 features=0\\n
generate 7 1|done pages=1 features=0\\n
generate 7 4095|done pages=1 features=2\\nurl.txt 1\\ndomain.txt 1\\n
generate --page 512 7 65536|done pages=128 features=28\\nurl.txt 8\\ndomain.txt 8\\nip.txt 4\\nether.txt 4\\nexec.txt 2\\nunread.txt 2\\n
generate 18446744073709551615 32768|done pages=1 features=14\\nurl.txt 4\\ndomain.txt 4\\nip.txt 2\\nether.txt 2\\nexec.txt 1\\nunread.txt 1\\n
END
