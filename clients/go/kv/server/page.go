package server

import (
	"bytes"
	"embed"
	"net/http"
	"path"
	"time"
)

//go:embed page
var files embed.FS

// pageFiles are the files of the page at /, by the paths at which they are served.
var pageFiles = map[string]string{
	"/":         "page/index.html",
	"/nodes.js": "page/nodes.js",
	"/draw.js":  "page/draw.js",
	"/page.css": "page/page.css",
}

// servePage answers with a file of the page.
func servePage(w http.ResponseWriter, r *http.Request, name string) error {
	text, err := files.ReadFile(name)
	if err != nil {
		return err
	}
	// The program has no time at which the file changed; so a browser asks again.
	w.Header().Set("Cache-Control", "no-cache")
	http.ServeContent(w, r, path.Base(name), time.Time{}, bytes.NewReader(text))
	return nil
}
