# The program's own lines as users read them. Every test of the program as a process uses these, so that a changed message is changed in one
# place. The man page lists them for users, and tests/pages/messages.sh compares the two.

no_image='cdpatch: cannot open the image'
no_script='cdpatch: cannot read the script'
no_output='cdpatch: cannot make the output file'
no_root='cdpatch: cannot open the root directory'
no_memory='cdpatch: no memory'
no_text='cdpatch: the words are not text'
no_script_memory='script: no memory'
long_script="cdpatch: the script is longer than $(limit 'bytes of a script') bytes"
long_image='cdpatch: the image has more than 1000000 sectors'
read_failed='cdpatch: reading the image failed'
write_failed='cdpatch: writing the output failed'

# The faults of a script's line, which follow its number.
no_head='no cdpatch 1 line'
unknown_verb='unknown verb'
word_count='wrong number of words'
bad_number='bad number'
bad_hex='bad hex'
bad_length='bad length'
bad_offset='offset over 2047'
bad_address='bad address'
