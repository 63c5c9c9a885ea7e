# Makes CSV of a web server's log.
BEGIN { FS = "\""; print "host,day,hour,path,status,bytes" }
{
  split($1, front, /[][ ]+/); split(front[4], time, /[\/:]/); split($2, request, " "); split($3, answer, " ")
  month = (index("JanFebMarAprMayJunJulAugSepOctNovDec", time[2]) + 2) / 3
  path = request[2] == "" ? "\\N" : "\"" request[2] "\""
  bytes = answer[2] == "-" ? "\\N" : answer[2]
  printf "%s,%d-%02d-%s,%d,%s,%s,%s\n", front[1], time[3], month, time[1], time[4], path, answer[1], bytes
}
