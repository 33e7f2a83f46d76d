package program

import (
	"io"
	"os/exec"
	"sync"
	"syscall"
)

// A child is the program's process, which leads a group of its own, with its pipes.
//
// The process is waited for by waitid with WNOWAIT. Its group is killed before it is reaped, since what it started may hold
// the pipes.
type child struct {
	command      *exec.Cmd
	input        io.WriteCloser
	output, told io.ReadCloser
	signalGroup  func(number int, signal syscall.Signal) error

	mutex    sync.Mutex // held while the group is signalled, and while the process is reaped
	isReaped bool       // from then on its number may be another process's
}

func newChild(path string, arguments []string) *child {
	c := &child{command: exec.Command(path, arguments...)}
	// A signal of the terminal is for this process, which then ends the program in order.
	c.command.SysProcAttr = &syscall.SysProcAttr{Setpgid: true}
	c.signalGroup = func(number int, signal syscall.Signal) error { return syscall.Kill(-number, signal) }
	return c
}

// launch runs the command with pipes as its input, its output and its error stream.
func (c *child) launch() (err error) {
	if c.input, err = c.command.StdinPipe(); err != nil {
		return err
	}
	if c.output, err = c.command.StdoutPipe(); err != nil {
		return err
	}
	if c.told, err = c.command.StderrPipe(); err != nil {
		return err
	}
	return c.command.Start()
}

// killGroup kills the process with what it has started, unless it has been reaped or was never there.
func (c *child) killGroup() {
	c.mutex.Lock()
	defer c.mutex.Unlock()
	if c.command.Process != nil && !c.isReaped {
		_ = c.signalGroup(c.command.Process.Pid, syscall.SIGKILL)
	}
}

// waitForEnd waits until the process has ended, and leaves it unreaped, so that no other one gets its number.
func (c *child) waitForEnd() {
	const byNumber = 1 // waitid's P_PID
	for {
		_, _, fault := syscall.Syscall6(
			syscall.SYS_WAITID, byNumber, uintptr(c.command.Process.Pid), 0, syscall.WEXITED|syscall.WNOWAIT, 0, 0)
		if fault != syscall.EINTR {
			return
		}
	}
}

// reap frees the number of a process that has ended, and says how it ended.
func (c *child) reap() error {
	c.mutex.Lock()
	defer c.mutex.Unlock()
	c.isReaped = true
	return c.command.Wait()
}

// closePipes ends what is read and written. A process that left the group may still hold their other ends.
func (c *child) closePipes() {
	for _, it := range []io.Closer{c.input, c.output, c.told} {
		_ = it.Close()
	}
}
