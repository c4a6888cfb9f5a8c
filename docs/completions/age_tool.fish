# Completion of age_tool for fish: copy this file to ~/.config/fish/completions

set -l commands encrypt decrypt resume inspect drill help
complete -c age_tool -n "not __fish_seen_subcommand_from $commands" -f
complete -c age_tool -n "not __fish_seen_subcommand_from $commands" -a encrypt -d "Encrypt a file with a passphrase"
complete -c age_tool -n "not __fish_seen_subcommand_from $commands" -a decrypt -d "Decrypt an age file"
complete -c age_tool -n "not __fish_seen_subcommand_from $commands" -a resume -d "Continue a decryption that stopped"
complete -c age_tool -n "not __fish_seen_subcommand_from $commands" -a inspect -d "Show what the header of an age file says"
complete -c age_tool -n "not __fish_seen_subcommand_from $commands" -a drill -d "Show how a reader reacts to lost, repeated or altered pieces"
complete -c age_tool -n "not __fish_seen_subcommand_from $commands" -a help -d "Print help"
complete -c age_tool -n "not __fish_seen_subcommand_from $commands" -s V -l version -d "Print the version"
complete -c age_tool -s h -l help -d "Print help"
complete -c age_tool -n "__fish_seen_subcommand_from help" -f -a "encrypt decrypt resume inspect drill"

complete -c age_tool -n "__fish_seen_subcommand_from encrypt decrypt resume drill" -l pass -r -F -d "File with the passphrase"
complete -c age_tool -n "__fish_seen_subcommand_from encrypt" -l log -x -a "(seq 1 22)" -d "Work factor, 1 to 22"
complete -c age_tool -n "__fish_seen_subcommand_from encrypt" -l random -r -F -d "Read 48 random bytes from FILE"
complete -c age_tool -n "__fish_seen_subcommand_from resume" -l position -r -F -d "File with the position that the stopped run saved"
complete -c age_tool -n "__fish_seen_subcommand_from resume" -l old -r -F -d "The output of the stopped run"
complete -c age_tool -n "__fish_seen_subcommand_from decrypt resume" -l file-key -x -d "The file key, 32 hexadecimal digits"
complete -c age_tool -n "__fish_seen_subcommand_from decrypt resume" -l shared -r -F -d "File with the shared secret of an X25519 stanza"
complete -c age_tool -n "__fish_seen_subcommand_from decrypt resume" -l max-log -x -a "(seq 1 22)" -d "With --pass, refuse work factors above N"
complete -c age_tool -n "__fish_seen_subcommand_from decrypt resume" -l save -r -F -d "If decryption stops at a fault, save its position here"
complete -c age_tool -n "__fish_seen_subcommand_from encrypt decrypt resume" -l no-sync -d "Don't wait until OUT, a regular file or a block device, has reached the disk"
complete -c age_tool -n "__fish_seen_subcommand_from encrypt decrypt resume" -l no-clobber -d "Refuse an existing OUT"
complete -c age_tool -n "__fish_seen_subcommand_from encrypt decrypt resume" -l progress -d "Show on standard error how much of IN has been read"
complete -c age_tool -n "__fish_seen_subcommand_from drill" -l clear -d "IN is a payload in the clear"
