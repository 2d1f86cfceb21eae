package main

import (
	"errors"
	"fmt"
	"os"
	"path/filepath"
	"syscall"
)

// The node whose log stands on a disk that is filled, and the size of that.
const (
	fullNode = 2
	diskSize = "48m"
)

// A disk in memory, on which a node's log stands.
type disk struct{ folder string }

// mountDisk mounts one at the folder of a log, or answers nil and says so.
func mountDisk(folder string) *disk {
	err := os.MkdirAll(folder, 0777)
	if err == nil {
		err = syscall.Mount("kv", folder, "tmpfs", 0, "size="+diskSize)
	}
	if err != nil {
		fmt.Println("no disk can be mounted here, a full one is left out")
		return nil
	}
	return &disk{folder}
}

func (d *disk) unmount() {
	if d != nil {
		_ = syscall.Unmount(d.folder, syscall.MNT_DETACH)
	}
}

// A log leaves files of other names alone.
func (d *disk) ballast() string { return filepath.Join(d.folder, "ballast") }

// fill takes all room.
func (d *disk) fill() error {
	file, err := os.Create(d.ballast())
	if err != nil {
		return err
	}
	defer file.Close()
	for size := 1 << 20; size > 0; {
		_, err := file.Write(make([]byte, size))
		switch {
		case errors.Is(err, syscall.ENOSPC):
			size /= 2
		case err != nil:
			return err
		}
	}
	return nil
}

func (d *disk) empty() error { return os.Remove(d.ballast()) }
