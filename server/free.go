package davserve

import (
	"fmt"
	"math"
	"net/http"
	"strconv"

	"davserve/internal/disk"
	"davserve/internal/frame"
)

// availableBytes is the name of the property that says how many bytes can still be stored (RFC 4331, section 3).
const availableBytes = "quota-available-bytes"

// noQuota is the quota of a davd over a folder that has none. davd says how many bytes the files have only with a quota,
// and what it takes to be available under this one is never reported: the handler replaces it.
const noQuota = math.MaxInt64

// reportsFree reports whether what is available is what is free on the file system of the folder.
func (o Options) reportsFree() bool {
	return o.Folder != "" && o.Quota == 0
}

// find passes a PROPFIND on and writes the response. Without a quota over a folder, what is available is what is free on
// its file system by then.
func (h *Handler) find(w http.ResponseWriter, r *http.Request, request *frame.Request) error {
	if !h.options.reportsFree() || !names(request.Body, availableBytes) {
		return h.answer(w, r, request)
	}
	response, err := h.ask(r.Context(), request)
	if err != nil {
		return err
	}
	free, err := disk.Free(h.options.Folder)
	if err != nil {
		return fmt.Errorf("what is free on the disk of the folder: %w", err)
	}
	setAvailable(response, free)
	return h.write(w, r, response)
}

// names reports whether a body has an element of this name, in whatever namespace.
func names(body frame.Body, name string) bool {
	root, ok := body.(*frame.Element)
	return ok && hasElement(root, name)
}

// hasElement reports whether an element or one inside it has this name.
func hasElement(element *frame.Element, name string) bool {
	if element.Name == name {
		return true
	}
	for _, node := range element.Nodes {
		if node.Element != nil && hasElement(node.Element, name) {
			return true
		}
	}
	return false
}

// setAvailable sets how many bytes are available to each resource in a multistatus that has a number of them.
func setAvailable(response *frame.Response, n int64) {
	if response.Root == nil {
		return
	}
	text := strconv.FormatInt(n, 10)
	for _, resource := range elementsOf(response.Root, "response") {
		for _, part := range elementsOf(resource, "propstat") {
			for _, prop := range elementsOf(part, "prop") {
				setText(prop, availableBytes, text)
			}
		}
	}
}

// setText replaces the text of each property of the server that has this name and a text.
func setText(prop *frame.Element, name, text string) {
	for _, property := range elementsOf(prop, name) {
		if len(property.Nodes) > 0 {
			property.Nodes = []frame.Node{{Text: text}}
		}
	}
}

// elementsOf returns the elements of the server in another one that have this name. A property of a client has a
// namespace.
func elementsOf(of *frame.Element, name string) []*frame.Element {
	var found []*frame.Element
	for _, node := range of.Nodes {
		if isDAV(node.Element, name) && node.Element.Namespace == "" {
			found = append(found, node.Element)
		}
	}
	return found
}
