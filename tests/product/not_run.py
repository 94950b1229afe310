"""What the pages for users have in code: the blocks that are not run, and the commands within sentences."""

README, HTTP, FROM_CARGO_VET, OPERATING = "README.md", "docs/http.md", "docs/from-cargo-vet.md", "docs/operating.md"

# blocks that are not run, by how they begin
NOT_RUN = {
    (README, "contrib/try"): "it compiles the program, which takes minutes",
    (README, "./check"): "it is the gate, of which this script is a part",
    (OPERATING, "# a whole distinguished name"): "nginx",
    (OPERATING, "[Unit]"): "systemd",
    (OPERATING, "# /etc/systemd/system/vetd-watch.service"): "systemd",
    (OPERATING, "# /etc/systemd/system/vetd-watch.timer"): "systemd",
    (OPERATING, "# /etc/systemd/system/vetd-day.service"): "systemd",
    (OPERATING, "# /etc/systemd/system/vetd-day.timer"): "systemd",
    (OPERATING, "contrib/gate"): "cargo; tests/pages/run_contrib runs the script",
}
# whole commands within sentences and tables, in the order in which they are run, each with its status
WITHIN = (
    (README, "vetd new --db register.db", 0),
    (README, "contrib/replace-files supply-chain | vetd apply --db register.db --day 2024-05-01", 0),
    (OPERATING, "contrib/exempt-rest register.db --apply", 0),
    (OPERATING, "printf 'command = \"set-day\"' | vetd apply --db register.db --day \"$(date -u +%F)\"", 0),
    (OPERATING, "./vetd --version", 2),
    (FROM_CARGO_VET, "contrib/cargo-metadata-to-table --help", 0),
)
OF_CONTRIB = "a register behind a proxy; tests/pages/run_contrib runs the script"
OF_SYSTEMD = "systemd; tests/pages/run_contrib runs the script"
NOT_RUN_WITHIN = {
    (README, "contrib/gate https://register.example"): "cargo; tests/pages/run_contrib runs the script",
    (OPERATING, "openssl x509 -in ann.pem -noout -subject -nameopt RFC2253"): "openssl",
    (OPERATING, "systemctl enable --now vetd-watch.timer"): "systemd",
    (OPERATING, "systemctl enable --now vetd-day.timer"): "systemd",
    (OPERATING, "sqlite3 register.db \"VACUUM INTO 'copy.db'\""): "sqlite3",
    (OPERATING, "contrib/why https://register.example serde 1.0.1"): OF_CONTRIB,
    (OPERATING, "contrib/page https://register.example >register.html"): OF_CONTRIB,
    (OPERATING, "contrib/sync-peers https://register.example --certificate ann.pem"): OF_CONTRIB,
    (OPERATING, "contrib/watch http://127.0.0.1:8080 ann systemctl try-restart vetd"): OF_SYSTEMD,
}
# what is run, but not as far as its page says
FROM_NOTHING = "./vetd from nothing (it proves for the better part of an hour; here it is the built program)"
