# Completion of the command line of timeforms(1) for bash.
_timeforms() {
    local forms='FileTime IsoDateTime IsoDate IsoDuration Toml Fancy PgIso Postgres PgVerbose PgSql IsoStrict'
    forms="$forms Unix PgTimestamp HttpDate MailDate XsdDuration"
    local intervals='PgIso Postgres PgVerbose PgSql IsoStrict'
    local word=${COMP_WORDS[COMP_CWORD]} words=
    case $COMP_CWORD-${COMP_WORDS[1]} in
        1-*) words="$forms schedule column recur sample --help --version" ;;
        2-column) words=$intervals ;;
        2-schedule | 2-recur | 2-sample | 2--*) ;;
        2-*) words=$forms ;;
        3-column | 3-schedule | 3-recur | 3-sample | 3--*) ;;
        3-*) words='field word' ;;
    esac
    read -r -d '' -a COMPREPLY <<<"$(compgen -W "$words" -- "$word")"
}
complete -F _timeforms timeforms
