#!/usr/bin/env bash
# Compiles the sources of the library and of the application anew, by a JDK from 9 to 19.
set -eu
cd "$(dirname "$0")"
top=$PWD
rm -rf app lib
mkdir app lib
(cd src/lib && find . -name '*.java' | sort | xargs javac -Xlint:-options -source 8 -target 8 -g:none -bootclasspath . -d "$top/lib")
(cd src/app && find . -name '*.java' | sort | xargs javac -Xlint:-options -source 8 -target 8 -g:none -bootclasspath "$top/lib" -d "$top/app")
