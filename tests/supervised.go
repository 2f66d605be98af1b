// For tests: a program in Go, whose standard library makes each system call itself. It writes a line for each thing that it found.
package main

import (
	"fmt"
	"os"
	"syscall"
	"unsafe"
)

const card = "/dev/dri/card0"

// request is the number of a DRM request that reads and writes a struct of this size.
func request(number, size uintptr) uintptr {
	return 3<<30 | size<<16 | 'd'<<8 | number
}

// version is struct drm_version.
type version struct {
	numbers           [3]int32
	_                 uint32
	nameLength        uint64
	name              uintptr
	dateLength        uint64
	date              uintptr
	descriptionLength uint64
	description       uintptr
}

// resources is struct drm_mode_card_res.
type resources struct {
	lists                                     [4]uint64
	framebuffers, crtcs, connectors, encoders uint32
	minWidth, maxWidth, minHeight, maxHeight  uint32
}

// crtc is struct drm_mode_crtc.
type crtc struct {
	connectors            uint64
	connectorCount        uint32
	id, framebuffer, x, y uint32
	gammaSize, modeValid  uint32
	mode                  [17]uint32
}

// ask makes a request with a struct, and returns the errno.
func ask(node int, number uintptr, argument unsafe.Pointer, size uintptr) syscall.Errno {
	_, _, errno := syscall.Syscall(syscall.SYS_IOCTL, uintptr(node), request(number, size), uintptr(argument))
	return errno
}

// open opens a node, and ends the program if that fails.
func open(path string) int {
	node, err := syscall.Open(path, syscall.O_RDWR|syscall.O_CLOEXEC, 0)
	if err != nil {
		fmt.Fprintln(os.Stderr, path, err)
		os.Exit(2)
	}
	return node
}

// driver returns the name of the driver of a node.
func driver(node int) string {
	var name [8]byte
	var asked = version{nameLength: uint64(len(name)), name: uintptr(unsafe.Pointer(&name))}
	ask(node, 0x00, unsafe.Pointer(&asked), unsafe.Sizeof(asked))
	return string(name[:])
}

// darken darkens CRTC 1, and returns the errno.
func darken(node int) syscall.Errno {
	var dark = crtc{id: 1}
	return ask(node, 0xa2, unsafe.Pointer(&dark), unsafe.Sizeof(dark))
}

func main() {
	var node, found = open(card), resources{}
	fmt.Println("driver", driver(node))
	ask(node, 0xa0, unsafe.Pointer(&found), unsafe.Sizeof(found))
	fmt.Println(found.crtcs, "CRTCs,", found.connectors, "connectors")
	var other = open(card)
	fmt.Println("the master darkens:", int(darken(node)))
	fmt.Println("another client darkens:", int(darken(other)))
	var _, err = os.Open("/dev/dri/card1")
	fmt.Println("another card:", err)
	// a goroutine is on another thread of the kernel's
	var done = make(chan syscall.Errno)
	go func() { done <- darken(node) }()
	fmt.Println("a goroutine darkens:", int(<-done))
}
