// What any_service.py is, by net/http of Go: `any_service PORT`.
package main

import (
	"crypto/sha256"
	"encoding/json"
	"fmt"
	"io"
	"net/http"
	"os"
	"sort"
	"strconv"
	"strings"
	"sync"
	"time"
)

var (
	files = map[string][]byte{}
	lock  sync.Mutex
)

type told struct {
	Method string      `json:"method"`
	Target string      `json:"target"`
	Fields [][2]string `json:"fields"`
	Length int         `json:"length"`
	Sum    string      `json:"sum"`
}

func tell(out http.ResponseWriter, status int, body []byte) {
	out.WriteHeader(status)
	out.Write(body)
}

func keep(out http.ResponseWriter, request *http.Request, body []byte) {
	lock.Lock()
	defer lock.Unlock()
	name := request.RequestURI
	kept, found := files[name]
	tag := fmt.Sprintf("%q", fmt.Sprintf("%x", sha256.Sum256(kept))[:8])
	switch {
	case request.Method == "PUT":
		files[name] = body
		out.Header().Set("Location", name)
		tell(out, map[bool]int{true: 200, false: 201}[found], []byte("kept"))
	case request.Method == "DELETE":
		delete(files, name)
		tell(out, map[bool]int{true: 204, false: 404}[found], nil)
	case !found:
		out.Header().Set("Content-Type", "text/html")
		tell(out, 404, []byte("<p>none</p>"))
	case request.Header.Get("If-None-Match") == tag:
		out.Header().Set("ETag", tag)
		tell(out, 304, nil)
	default:
		out.Header().Set("ETag", tag)
		tell(out, 200, kept)
	}
}

func fields(request *http.Request) [][2]string {
	found := [][2]string{{"host", request.Host}}
	for name, values := range request.Header {
		for _, value := range values {
			found = append(found, [2]string{strings.ToLower(name), value})
		}
	}
	sort.Slice(found, func(a, b int) bool { return found[a][0]+found[a][1] < found[b][0]+found[b][1] })
	return found
}

func answer(out http.ResponseWriter, request *http.Request) {
	body, _ := io.ReadAll(request.Body)
	os.Stdout.WriteString(request.Method + " " + request.RequestURI + "\n")
	path := strings.SplitN(request.RequestURI, "?", 2)[0]
	has := func(name string) bool { return strings.Contains(path+"/", "/"+name+"/") }
	last := path[strings.LastIndex(path, "/")+1:]
	if has("hang") {
		seconds, _ := strconv.ParseFloat(last, 64)
		time.Sleep(time.Duration(seconds * float64(time.Second)))
	}
	switch status, _ := strconv.Atoi(last); {
	case has("files"):
		keep(out, request, body)
	case has("status"):
		out.Header().Set("WWW-Authenticate", `Basic realm="x"`)
		if status == 204 || status == 205 || status == 304 {
			body = nil
		} else {
			body = []byte(`{"a":1}`)
		}
		tell(out, status, body)
	case has("cookies"):
		out.Header()["Set-Cookie"] = []string{"a=1; Path=/", "b=2"}
		out.Header().Set("X-Odd", "caf\xe9")
		tell(out, 200, []byte("c"))
	case has("chunks"):
		out.Write(body)
		out.(http.Flusher).Flush()
		out.Write([]byte("end"))
	default:
		out.Header().Set("Content-Type", "application/json")
		json.NewEncoder(out).Encode(told{request.Method, request.RequestURI, fields(request), len(body), fmt.Sprintf("%x", sha256.Sum256(body))})
	}
}

func main() {
	http.ListenAndServe("127.0.0.1:"+os.Args[1], http.HandlerFunc(answer))
}
