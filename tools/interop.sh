#!/usr/bin/env bash
# WAVE and Sun AU files of other programs through `dspfx run` and `dspfx convert`, and what it writes read
# by them: python's `wave` module, and sox, libsndfile's tools and ffmpeg where they are installed. It is no
# part of the gate. DSPFX names another program to be tried, which takes `run SCRIPT IN OUT`.
. "$(dirname "$(readlink -f "${BASH_SOURCE[0]}")")/checking.sh"

# Copies a WAVE file by a script of no blocks: copy FORMAT CHANNELS IN OUT [CONTAINER].
copy() {
    echo "dspfx 1 input wave $1 $2 output ${5:-wave}" >"$folder/script.txt"
    rm -f "$4"
    "$program" run "$folder/script.txt" "$3" "$4"
}

# Writes noise with python's `wave`: python_write BYTES CHANNELS RATE FRAMES FILE.
python_write() {
    python3 - "$@" <<'PYTHON'
import random
import sys
import wave

width, channels, rate, frames = map(int, sys.argv[1:5])
random.seed(width * channels + frames)
with wave.open(sys.argv[5], "wb") as file:
    file.setnchannels(channels)
    file.setsampwidth(width)
    file.setframerate(rate)
    file.writeframes(random.randbytes(width * channels * frames))
PYTHON
}

# Whether python's `wave` reads the same from both files, and the second has an even length.
python_same() {
    python3 - "$@" <<'PYTHON'
import os
import sys
import wave


def read(path):
    with wave.open(path, "rb") as file:
        return file.getparams(), file.readframes(file.getnframes())


assert read(sys.argv[1]) == read(sys.argv[2]), (read(sys.argv[1])[0], read(sys.argv[2])[0])
assert os.path.getsize(sys.argv[2]) % 2 == 0, os.path.getsize(sys.argv[2])
PYTHON
}

with_python() {
    local format bytes channels frames name
    for format in q7:1 q15:2 q31:4; do
        bytes=${format#*:}
        for channels in 1 2 3 16; do
            for frames in 0 1 3 1000; do
                name="python $format channels $channels frames $frames"
                check "$name: write" python_write "$bytes" "$channels" 44100 "$frames" "$folder/in.wav"
                check "$name: run" copy "${format%:*}" "$channels" "$folder/in.wav" "$folder/out.wav"
                check "$name: read" python_same "$folder/in.wav" "$folder/out.wav"
            done
        done
    done
}

# A file of noise in so many bits as each program writes it, `wav` or with an extension, `wavex`:
# write_by_PROGRAM BITS CHANNELS FORM FILE. The noise is the 24 bits of noise.wav.
write_by_sox() {
    local kind=wavpcm
    [ "$3" = wavex ] && kind=wav
    [ "$3" = wavex ] && [ "$1" -le 16 ] && [ "$2" -le 2 ] && return 2
    sox -D "$folder/noise.wav" -b "$1" -t "$kind" "$4"
}

write_by_sndfile() {
    local kind=pcm$1
    [ "$1" = 8 ] && kind=pcmu8
    sndfile-convert "-$kind" "$folder/noise.wav" "$folder/made.$3" && mv "$folder/made.$3" "$4"
}

write_by_ffmpeg() {
    local kind=pcm_s$1le
    [ "$1" = 8 ] && kind=pcm_u8
    [ "$3" = wavex ] && [ "$1" -le 16 ] && [ "$2" -le 2 ] && return 2
    [ "$3" = wav ] && { [ "$1" -gt 16 ] || [ "$2" -gt 2 ]; } && return 2
    ffmpeg -v error -y -i "$folder/noise.wav" -c:a "$kind" "$4"
}

# The samples of a file in 32 bits, as each program reads them: read_by_PROGRAM FILE RAW.
read_by_sox() { sox -D "$1" -t raw -e signed-integer -b 32 "$2"; }
read_by_sndfile() { sndfile-convert -pcm32 "$1" "$2.raw" && mv "$2.raw" "$2"; }
read_by_ffmpeg() { ffmpeg -v error -y -i "$1" -f s32le "$2"; }

# Whether a program reads the same samples from both files: same_by PROGRAM FIRST SECOND.
same_by() {
    "read_by_$1" "$2" "$folder/first" && "read_by_$1" "$3" "$folder/second" && cmp "$folder/first" "$folder/second"
}

# Files of a program, read here and written in both forms, and those read by it.
with_program() {
    local program_of=$1 bits channels form container name format status
    for bits in 8:q7 16:q15 24:q31 32:q31; do
        format=${bits#*:} bits=${bits%:*}
        for channels in 1 2 6; do
            python_write 3 "$channels" 48000 333 "$folder/noise.wav"
            for form in wav wavex; do
                name="$program_of, $bits bits, $channels channels, $form"
                "write_by_$program_of" "$bits" "$channels" "$form" "$folder/in.wav" >"$folder/log" 2>&1
                status=$?
                [ "$status" = 2 ] && continue # the program has no such form
                check "$name: written" test "$status" = 0
                for container in wave wavex; do
                    check "$name: to $container" copy "$format" "$channels" "$folder/in.wav" "$folder/out.wav" "$container"
                    check "$name: $container as it was" same_by "$program_of" "$folder/in.wav" "$folder/out.wav"
                done
            done
        done
    done
}

# Writes a file again in the other form: turn FROM TO IN OUT.
turn() {
    rm -f "$4"
    "$program" convert "$@"
}

# The noise as a Sun AU file of so many bits: au_by_PROGRAM BITS FILE.
au_by_sox() { sox -D "$folder/noise.wav" -e signed-integer -b "$1" -t au "$2"; }
au_by_sndfile() {
    local kind=pcm$1
    [ "$1" = 8 ] && kind=pcms8
    sndfile-convert "-$kind" "$folder/noise.wav" "$folder/made.au" && mv "$folder/made.au" "$2"
}
au_by_ffmpeg() {
    local kind=pcm_s$1be
    [ "$1" = 8 ] && kind=pcm_s8
    ffmpeg -v error -y -i "$folder/noise.wav" -c:a "$kind" -f au "$2"
}

# Files of a program in either form, converted here, and those read by it; and back.
with_conversions() {
    local program_of=$1 bits channels name status
    for bits in 8 16 24 32; do
        for channels in 1 2 6; do
            name="$program_of, convert, $bits bits, $channels channels"
            python_write 3 "$channels" 48000 333 "$folder/noise.wav"
            "au_by_$program_of" "$bits" "$folder/in.au" >"$folder/log" 2>&1
            status=$?
            check "$name: written" test "$status" = 0
            check "$name: to WAVE" turn au wave "$folder/in.au" "$folder/out.wav"
            check "$name: WAVE as it was" same_by "$program_of" "$folder/in.au" "$folder/out.wav"
            check "$name: to AU" turn wave au "$folder/out.wav" "$folder/out.au"
            check "$name: AU as it was" same_by "$program_of" "$folder/in.au" "$folder/out.au"
        done
    done
}

if has python3; then
    with_python
    if has sox; then with_program sox; with_conversions sox; fi
    if has sndfile-convert; then with_program sndfile; with_conversions sndfile; fi
    if has ffmpeg; then with_program ffmpeg; with_conversions ffmpeg; fi
fi

counted
