-- Requests for 10,000 keys by one method: `METHOD PATH [BODY [TIMES TYPE]]`, the body so many times, which is a content of this type; for fewer keys
-- if their bodies have more than 50 million bytes. In the end one line: requests, microseconds, the microseconds that half of the requests took at
-- most, that 99 of 100 took at most, errors and answers that are not 2xx or 3xx.
local requests, last = {}, 0

function init(words)
    local body = words[3] and words[3]:rep(words[4] or 1)
    local fields = words[5] and { ["Content-Type"] = words[5] }
    for key = 1, math.min(10000, 50000000 / #(body or "a")) do
        requests[key] = wrk.format(words[1], words[2] .. "key-" .. key, fields, body)
    end
    last = math.random(#requests)
end

function request()
    last = last % #requests + 1
    return requests[last]
end

function done(summary, latency)
    local errors = summary.errors
    local lost = errors.connect + errors.read + errors.write + errors.timeout
    io.write(string.format("RESULT %d %d %d %d %d %d\n", summary.requests, summary.duration, latency:percentile(50), latency:percentile(99),
        lost, errors.status))
end
