#!/bin/sh
# A talk with the service by curl. Each request prints what it is about, the body that is answered and the status.
#
#     sh with-curl.sh [HOST:PORT]
#
# The server is 127.0.0.1:8080 where it is left out. It has the tenants of tenants.json, the library of library.json,
# and no documents yet. The file with-curl.answer tells what is printed.

SERVER=http://${1:-127.0.0.1:8080}
KEY=shop

# Each of these is one request of the tenant KEY, on a connection of its own.
ask() { curl --silent --show-error --max-time 30 --header "x-tenant-key: $KEY" --write-out '\n%{http_code}\n' "$@"; }
put() { ask --request PUT --data-binary "$2" "$SERVER/schemas?uri=$1"; }
delete() { ask --request DELETE "$SERVER/schemas?uri=$1"; }
validate() { ask --data-binary "$2" "$SERVER/validate?uri=$1"; }
bundle() { ask "$SERVER/bundle?uri=$1"; }
batch() { ask --data-binary "$1" "$SERVER/batch"; }

say() { printf '\n# %s\n' "$*"; }

say A document is stored, under its canonical URI.
put https://example.com/orders/../order '{"type":"object","required":["lines"]}'
say It is replaced.
put https://example.com/order '{"type":"object","required":["lines"],"properties":{"lines":{"items":{"$ref":"line"}},"town":{"$ref":"common/town"}}}'
say It refers to a document that is not there.
validate https://example.com/order '{"lines":[]}'
say Which is put then.
put https://example.com/line '{"required":["sku"],"properties":{"count":{"type":"integer","minimum":1}}}'
say An order is valid.
validate https://example.com/order '{"lines":[{"sku":"LA-0042","count":2}]}'
say Another is not: its line has no sku and a count of 0, and its town, which the library judges, no letter.
validate https://example.com/order '{"lines":[{"count":0}],"town":""}'
say The order as one document, with all that it refers to.
bundle https://example.com/order
say Two documents at once, each of which refers to the other.
batch '{"put":[{"uri":"https://example.com/person","schema":{"properties":{"employer":{"$ref":"company"}}}},{"uri":"https://example.com/company","schema":{"required":["name"],"properties":{"staff":{"items":{"$ref":"person"}}}}}]}'
say Both again, and one more.
batch '{"put":[{"uri":"https://example.com/person","schema":{"properties":{"employer":{"$ref":"company"}}}},{"uri":"https://example.com/town","schema":{"$id":"city"}}]}'
say A document of the library that refers to the own one of whoever asks.
put https://example.com/own/label '{"type":"string"}'
validate https://example.com/common/labelled '{"label":7}'
say A document is deleted, and not there any more.
delete https://example.com/city
delete https://example.com/city

say Another tenant has none of these, and may take their URIs.
KEY=press
validate https://example.com/order '{"lines":[]}'
validate https://example.com/common/labelled '{"label":7}'
put https://example.com/order '{"type":"array"}'
validate https://example.com/order '[]'

say Quotas: one document at most, and 20 bytes.
KEY=small
put https://example.com/a '{}'
put https://example.com/b '{}'
put https://example.com/a '{"minLength":10000000}'
batch '{"put":[{"uri":"https://example.com/a","schema":{}},{"uri":"https://example.com/b","schema":{}}]}'
delete https://example.com/a

say Bodies that are no JSON, or hold a number that is no whole number of 64 bits.
KEY=press
put https://example.com/s '[1'
put https://example.com/s '{"const":1.0}'
validate https://example.com/order '[1'
validate https://example.com/order '1e2'
say Documents that have a fault.
put https://example.com/s '{"pattern":"(?=a)"}'
put https://example.com/s '[]'
put https://example.com/s "{\"const\":$(printf '%120s' '' | tr ' ' '[')$(printf '%120s' '' | tr ' ' ']')}"
put https://example.com/s '{"properties":{"a/b":{"type":"int"}}}'
put https://example.com/s '{"$id":"a#b"}'
put https://example.com/s '{"$anchor":"1"}'
put https://example.com/s '{"$schema":"https://json-schema.org/draft-07/schema"}'
put https://example.com/s '{"$defs":{"d":{"$id":"s"}}}'
put https://example.com/s '{"$anchor":"n","$defs":{"d":{"$dynamicAnchor":"n"}}}'
say URIs that are none.
put s '{}'
delete https://example.com/a%23
say What is not there.
bundle https://example.com/s
say Instances that are not judged: too many applications, a loop, too deep a nesting.
put https://example.com/costly "{\"\$ref\":\"#/\$defs/d1\",\"\$defs\":{$(for n in $(seq 1 19); do printf '"d%d":{"allOf":[{"$ref":"#/$defs/d%d"},{"$ref":"#/$defs/d%d"}]},' "$n" $((n + 1)) $((n + 1)); done)\"d20\":{}}}"
validate https://example.com/costly 1
put https://example.com/loop '{"$ref":"#"}'
validate https://example.com/loop 1
put https://example.com/deep "{\"\$ref\":\"#/\$defs/d1\",\"\$defs\":{$(for n in $(seq 1 999); do printf '"d%d":{"$ref":"#/$defs/d%d"},' "$n" $((n + 1)); done)\"d1000\":{}}}"
validate https://example.com/deep 1
say Bundles that can not be made.
put https://example.com/clash '{"$defs":{"https://example.com/loop":{}},"$ref":"loop"}'
bundle https://example.com/clash
put https://example.com/nested "{\"const\":$(printf '%118s' '' | tr ' ' '[')$(printf '%118s' '' | tr ' ' ']')}"
put https://example.com/too-large '{"$ref":"nested"}'
bundle https://example.com/too-large
say Resources that belong to another document, or to the library.
put https://example.com/t '{"$defs":{"e":{"$id":"loop"}}}'
put https://example.com/common/town '{}'
delete https://example.com/common/town
say Batches that are refused, each as a whole.
batch '{"put":[]}'
batch '{"put":[{"uri":"https://example.com/u","schema":{}},{"uri":"https://example.com/v","schema":{"not":5}}]}'
batch '{"put":[{"uri":"https://example.com/u","schema":{}},{"uri":"https://example.com/./u","schema":{}}]}'
batch '{"put":[{"uri":"https://example.com/u","schema":{"$defs":{"e":{"$id":"v"}}}},{"uri":"https://example.com/v","schema":{}}]}'
validate https://example.com/u 1
say A key that no tenant has, and no key.
KEY=nobody
validate https://example.com/order '[]'
KEY=
validate https://example.com/order '[]'
say Targets that are no route.
KEY=shop
ask "$SERVER/"
ask --request PUT --data-binary '{}' "$SERVER/schemas"
ask --request POST --data-binary '{}' "$SERVER/batch?uri=https://example.com/a"
say Requests behind which the connection is closed.
ask --request TRACE "$SERVER/bundle?uri=https://example.com/order"
ask --header 'transfer-encoding: chunked' --data-binary '{}' "$SERVER/validate?uri=https://example.com/order"
head -c 1048577 /dev/zero | tr '\0' ' ' | ask --data-binary @- "$SERVER/validate?uri=https://example.com/order"

say Two requests on one connection: the second one needs no new one.
curl --silent --show-error --max-time 30 --header "x-tenant-key: shop" --write-out '\n%{http_code}, new connections: %{num_connects}\n' \
    "$SERVER/bundle?uri=https://example.com/line" "$SERVER/bundle?uri=https://example.com/order"
say HTTP/1.0: the reply is the last one.
ask --http1.0 --include "$SERVER/bundle?uri=https://example.com/line" | tr -d '\r'
