#!/usr/bin/env bash
# Builds the pages docs/site, checks the manual pages with mandoc, follows the links of all pages
# with linkchecker, and looks for what they fetch from elsewhere. A tool that is missing is a failure.
# The last line is 'N passed, M failed'.
set -uo pipefail
cd "$(dirname "$0")/.." || exit 1
. .ci/checks.sh

fetches_nothing() {
    ! grep -rE '<(script|img|link|iframe)[^>]* (src|href)="(https?:)?//' --include='*.html' docs/site
}

check 'the pages' docs/html/build.sh
if check "mandoc, in Debian's package mandoc" command -v mandoc; then
    packaging/man3 "$room"
    for page in "$room"/*.3 crates/*/*.1; do
        check "$page" mandoc -T lint -W warning "$page"
    done
fi
check 'the links' linkchecker --no-status docs/site/index.html
check 'what pages fetch' fetches_nothing
finish
