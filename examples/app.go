// A service that counts the requests of each key: `go run app.go PORT`, behind `ringpop agent --app 127.0.0.1:PORT ..`.
package main

import (
	"fmt"
	"io"
	"log"
	"net/http"
	"os"
	"strings"
	"sync"
)

var lock sync.Mutex
var counts = map[string]int{}

func answer(writer http.ResponseWriter, request *http.Request) {
	key := strings.TrimPrefix(request.URL.Path, "/keys/")
	body, _ := io.ReadAll(request.Body)
	lock.Lock()
	counts[key]++
	count := counts[key]
	lock.Unlock()
	fmt.Fprintf(writer, "%s: %d %s", key, count, body)
}

func main() {
	log.Fatal(http.ListenAndServe("127.0.0.1:"+os.Args[1], http.HandlerFunc(answer)))
}
