# Runs a script over each WAVE file of a folder: make -j -f examples/many.mk SCRIPT=.. FROM=.. TO=..
# Only what is older than its recording or the script is run again. Names with spaces are not for make.
SCRIPT = examples/lowpass/script.txt
FROM = recordings
TO = filtered

RECORDINGS = $(or $(wildcard $(FROM)/*.wav),$(error no .wav file is in $(FROM)))

all: $(patsubst $(FROM)/%,$(TO)/%,$(RECORDINGS))

$(TO)/%.wav: $(FROM)/%.wav $(SCRIPT)
	@mkdir -p $(TO)
	./dspfx run $(SCRIPT) $< $@ >/dev/null

.DELETE_ON_ERROR:
