#compdef timeforms
# Completion of the command line of timeforms(1) for zsh.
local -a intervals=(PgIso Postgres PgVerbose PgSql IsoStrict)
local -a forms=(FileTime IsoDateTime IsoDate IsoDuration Toml Fancy $intervals Unix PgTimestamp HttpDate MailDate XsdDuration)
case $CURRENT-$words[2] in
    2-*) compadd -- $forms schedule column recur sample --help --version ;;
    3-column) compadd -- $intervals ;;
    3-(schedule|recur|sample|-*)) ;;
    3-*) compadd -- $forms ;;
    4-(column|schedule|recur|sample|-*)) ;;
    4-*) compadd -- field word ;;
esac
