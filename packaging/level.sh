# level.sh: which code a processor can run. It is read with `.`, by any shell.
# shellcheck shell=sh

LEVELS='x86-64-v2 x86-64-v3'

# Sets `level` to what GELI_CPU names, else to x86-64-v3 where the first processor has all that it needs, else to
# x86-64-v2. (GELI_CPUINFO names another file than /proc/cpuinfo, for tests.)
choose_level() {
    level=${GELI_CPU:-}
    [ -z "$level" ] || return 0
    level=x86-64-v2
    [ -r "${GELI_CPUINFO:-/proc/cpuinfo}" ] || return 0
    while read -r name _ flags; do
        [ "$name" = flags ] || continue
        for flag in avx2 bmi1 bmi2 f16c fma movbe; do
            case " $flags " in *" $flag "*) ;; *) return 0 ;; esac
        done
        # Linux calls lzcnt `abm`.
        case " $flags " in *' abm '* | *' lzcnt '*) level=x86-64-v3 ;; esac
        return 0
    done <"${GELI_CPUINFO:-/proc/cpuinfo}"
}

# Whether there is code for the level.
is_level() { case " $LEVELS " in *" $1 "*) ;; *) return 1 ;; esac; }
