# Completion of the command line of timeforms(1) for fish.
set -l intervals PgIso Postgres PgVerbose PgSql IsoStrict
set -l forms FileTime IsoDateTime IsoDate IsoDuration Toml Fancy $intervals Unix PgTimestamp HttpDate MailDate XsdDuration
set -l commands schedule column recur sample
set -l count 'count (commandline --tokenize --cut-at-cursor)'
complete -c timeforms -f
complete -c timeforms -n "test ($count) -eq 1" -a "$forms $commands"
complete -c timeforms -n "test ($count) -eq 1" -l help -d 'print the usage'
complete -c timeforms -n "test ($count) -eq 1" -l version -d 'print the version'
complete -c timeforms -n "test ($count) -eq 2; and __fish_seen_subcommand_from column" -a "$intervals"
complete -c timeforms -n "test ($count) -eq 2; and __fish_seen_subcommand_from $forms" -a "$forms"
complete -c timeforms -n "test ($count) -eq 3; and __fish_seen_subcommand_from $forms" -a 'field word'
