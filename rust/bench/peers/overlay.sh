# overlay.sh FOLDER EXPRESSION, run by GRASS: r.mapcalc's overlay of the rasters first.raw and second.raw to result.raw. Prints the
# milliseconds of r.mapcalc alone, which reads and writes GRASS's own maps.
set -eu
cd "$1"
for map in first second; do
    r.in.bin --quiet input="$map.raw" output="$map" bytes=1 rows=4096 cols=4096 north=4096 south=0 east=4096 west=0
done
g.region raster=first
start=$(date +%s%N)
r.mapcalc --quiet expression="result = $2"
end=$(date +%s%N)
r.out.bin --quiet -i input=result output=result.raw bytes=1
echo "$(((end - start) / 1000000))"
