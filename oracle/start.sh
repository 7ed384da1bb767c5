# What the scripts here begin with: HOSTPATH_LIB, by oracle/library, and ORACLE_SOURCE, where it is set, are whole paths from
# here on, whatever folder a script goes to.
case ${ORACLE_SOURCE-} in
'' | /*) ;;
*)
    ORACLE_SOURCE=$PWD/$ORACLE_SOURCE
    export ORACLE_SOURCE
    ;;
esac
HOSTPATH_LIB=$("$(dirname "$0")/library")
export HOSTPATH_LIB
