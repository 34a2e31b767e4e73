# `make help` lists the words. Nothing is needed but the Rattle kit, whose command is `rt`.

.PHONY: build blueprint quick example proved picture install uninstall page book test listed cases definitions help

# Proves and builds ./streams. Both programs are built from the lowest crate up; what is proved is kept for `make test` too, where the kit does so.
build:
	@tools/prove stream_main streams

# Proves and builds ./blueprint.
blueprint:
	@tools/prove workbench_main blueprint

# Builds out/quick/streams and out/quick/blueprint without any proof, in some three minutes; nothing is done where no source has changed since.
quick:
	@tools/quick

# A first look, without any proof: each blueprint, its inputs, its report and every file that its sinks wrote, by out/quick/streams, which
# the first call builds. `make example` runs examples/log, `make example NAME=split` another of examples/, `make example FROM=../logs` every
# blueprint of a folder over copies of its files, with NAME=sum its sum.blue alone.
NAME =
FROM =

example:
	@tools/look "$(FROM)" "$(NAME)"

# Runs a bundled example by ./streams, and compares what it leaves with examples/NAME/result: `make proved NAME=split`, else examples/log.
PROVED = $(or $(NAME),log)

proved:
	@test -d "examples/$(PROVED)" || { echo "There is no folder examples/$(PROVED)."; exit 1; }
	@$(MAKE) --no-print-directory build
	rm -rf out/example && mkdir -p out && cp -r "examples/$(PROVED)" out/example
	@echo "--- the report of $(PROVED).blue:"
	cd out/example && ../../streams "$(PROVED).blue" | tee report
	@cd out/example && diff report result/report
	@cd out/example/result && for file in *; do test $$file = report || { echo "--- $$file holds:"; cat ../$$file; diff ../$$file $$file || exit 1; }; done

# `make picture FILE=log.blue` draws that blueprint of the current folder as picture.svg, where `dot` is installed. One that breaks a rule is drawn with its fault in red.
picture:
	@test -n "$(FILE)" || { echo "make picture FILE=.."; exit 1; }
	@test -f "$(FILE)" || { echo "There is no file $(FILE)."; exit 1; }
	@$(MAKE) --no-print-directory blueprint
	./blueprint draw "$(FILE)" > picture.dot < /dev/null || test $$? -eq 2
	dot -Tsvg -o picture.svg picture.dot

# Installs ./streams and ./blueprint with their man pages, completions, colours for editors, examples, and the HTML book if it was made:
# `make install PREFIX=~/.local`. UNPROVED=1 takes the programs of `make quick`. docs/INSTALL.md says what goes where.
PREFIX = /usr/local
DESTDIR =
UNPROVED =

install uninstall:
	@PREFIX="$(PREFIX)" DESTDIR="$(DESTDIR)" UNPROVED="$(UNPROVED)" tools/install $@

# Makes out/page/index.html, a page that runs both programs in a browser, of what `make quick` builds. It opens as a file, and sends nothing
# anywhere. page/try_cases and page/try_page try it in a headless Chromium, where one is installed.
page: quick
	@page/make_page

# The user's book and the pages of reference as HTML, out/book/index.html, by pandoc. A blueprint there has its picture where there are `dot` and
# a program blueprint (./blueprint, or out/quick/blueprint), and a link that opens it where there is out/page. Proves nothing.
book:
	@tools/make_book

# The merge gate. The pages are compared first too, which takes a second; a line is printed for each step.
# How long a first run took; README.md says so too.
FIRST_RUN = some 180 processor minutes, so about an hour, on four free processors; nearly twice that on a slower machine beside other work

test: listed
	@echo "The first run proves every crate that this machine has not proved yet ($(FIRST_RUN)); later runs prove only what changed, where the kit keeps what is proved."
	bash .ci/run

# Writes the cases of the pages and of examples/ anew, and how many cases there are.
cases:
	tools/page_cases > crates/rows/data/book.txt
	tools/example_cases >> crates/rows/data/book.txt
	echo "$$(cat crates/rows/data/*.txt | grep -c '^case ') passed, 0 failed" > crates/rows/stdout

# Writes the last part of docs/DEFINITIONS.md anew, from the comments above the definitions.
definitions:
	tools/definitions --write

# Compares the pages with the cases, the definitions, the crates and the names that they speak of; .ci/run does so too.
listed:
	@tools/pages_stand

help:
	@echo "make quick                          builds out/quick/streams and out/quick/blueprint without any proof, in some three minutes"
	@echo "make example                        a first look, nothing proved: examples/log, its input, its report and the files that it wrote"
	@echo "make example NAME=split             another of examples/"
	@echo "make example FROM=../logs           every blueprint of a folder, over copies of its files; with NAME=sum its sum.blue alone"
	@echo "make                                proves and builds ./streams"
	@echo "make proved NAME=split              that, and runs an example by it, beside what it is to leave"
	@echo "make blueprint                      proves and builds ./blueprint, which checks, draws and explains blueprints"
	@echo "make picture FILE=log.blue          draws a blueprint of this folder as picture.svg, by ./blueprint and dot"
	@echo "make install PREFIX=~/.local        installs both programs, man pages, completions, colours for editors, and examples; make uninstall"
	@echo "make page                           makes out/page/index.html, a page that runs both programs in a browser, not proved"
	@echo "make book                           writes the user's book as HTML, out/book/index.html, by pandoc, with pictures and search"
	@echo "make test                           the gate: every proof, must-fail edit, test and program, and pages beside what they speak of"
	@echo "make cases                          writes the cases of the pages anew; make listed compares them"
	@echo "make definitions                    writes the rows of docs/DEFINITIONS.md anew, from the comments of specs/; make listed compares them"
