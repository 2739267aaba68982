# shellcheck shell=bash
# Answers --help and --version. A script sources this file, with its own words, before it does
# anything else: --help prints the comment at the script's head, and --version the version of the
# sources.

case ${1:-} in
  --help)
    sed '1d; /^#/!Q; s/^# \{0,1\}//' "$0"
    exit
    ;;
  --version)
    version=$(git -C "$(dirname "${BASH_SOURCE[0]}")" log -1 --date=format:0.%Y%m%d --format=%cd 2>/dev/null) || version='of a checkout'
    echo "${0##*/} $version"
    exit
    ;;
esac
