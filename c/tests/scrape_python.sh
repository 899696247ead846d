#!/usr/bin/env bash
# The scraper of examples/python at a live host, `t5250 serve` of examples/inquiry.serve, with the Python package as pip
# installs it and the library and the program as `make install` does: it prints the item with its price, and the host is
# told what examples/inquiry.served has.
#
#     scrape_python.sh FOLDER         FOLDER has bin/t5250 and lib/libribbonscarp.so
source "$(dirname "$0")/inquiry.sh" || exit 2
top=$(dirname "$examples")

# pip builds in the folder that it is given.
cp -r "$top/python" "$folder/python"
if python3 -m pip --version >/dev/null 2>&1; then
    python3 -m pip install -q --disable-pip-version-check --root-user-action=ignore --no-index \
        --target "$folder/installed" "$folder/python" || exit 1
else
    echo "left out: installing the Python package, since pip isn't here"
    mv "$folder/python" "$folder/installed"
fi

begin_inquiry "$1/bin/t5250"
cd "$folder" || exit 2
end_inquiry "4711 12.50" env -u RIBBONSCARP_LIBRARY LD_LIBRARY_PATH="$1/lib" PYTHONPATH="$folder/installed" \
    PASSWORD=SECRET python3 "$top/examples/python/scrape.py" 127.0.0.1 "$port" QUSER 4711
