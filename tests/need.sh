# need COMMAND PACKAGE: installs Debian's PACKAGE where COMMAND is missing. To be sourced.
need() {
  command -v "$1" >/dev/null 2>&1 && return 0
  echo "installing $2 for $1"
  if [ "$(id -u)" = 0 ]; then as_root=; else as_root=sudo; fi
  $as_root apt-get update -qq
  DEBIAN_FRONTEND=noninteractive $as_root apt-get install -y -qq "$2" >/dev/null
  command -v "$1" >/dev/null 2>&1 || { echo "no $1 even with the package $2" >&2; exit 1; }
}
