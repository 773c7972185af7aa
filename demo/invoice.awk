# Turns booking files into invoice lines: the file's name, the guest, nights times price.
function line() {
    if (name != "")
        printf "%s %s: nights %d, price %s, sum %.2f\n", name, field["guest"], field["nights"], field["price"], field["nights"] * field["price"]
}

FNR == 1 {
    line()
    name = FILENAME
    sub(/.*\//, "", name)
    split("", field)
}

{ field[$1] = $2 }

END { line() }
