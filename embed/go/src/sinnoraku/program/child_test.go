package program

import (
	"errors"
	"os"
	"os/exec"
	"path/filepath"
	"strings"
	"sync"
	"sync/atomic"
	"syscall"
	"testing"
)

// Four goroutines kill a group while its leader ends and is reaped. Each signal finds the leader unreaped, and none comes
// after that.
func TestOnlyAGroupThatIsThereIsKilled(t *testing.T) {
	path, err := exec.LookPath("true")
	if err != nil {
		t.Skip(err)
	}
	for turn := 0; turn < 50; turn++ {
		var signals, faults atomic.Int64
		c := newChild(path, nil)
		c.signalGroup = func(number int, _ syscall.Signal) error {
			signals.Add(1)
			err := syscall.Kill(number, 0)
			if err != nil {
				faults.Add(1)
			}
			return err
		}
		if err := c.launch(); err != nil {
			t.Fatal(err)
		}
		stop := make(chan struct{})
		var killing sync.WaitGroup
		for killer := 0; killer < 4; killer++ {
			killing.Add(1)
			go func() {
				defer killing.Done()
				for {
					select {
					case <-stop:
						return
					default:
						c.killGroup()
					}
				}
			}()
		}
		c.waitForEnd()
		if err := c.reap(); err != nil {
			t.Error(err)
		}
		before := signals.Load()
		c.killGroup()
		close(stop)
		killing.Wait()
		if after := signals.Load(); after != before || faults.Load() != 0 {
			t.Fatalf("%d signals came after the end, and %d found no process", after-before, faults.Load())
		}
	}
}

func TestAProgramThatHasEndedIsNotKilled(t *testing.T) {
	p := start(writeProgram(t, "exit 3"), nil, configuration, &readers{})
	<-p.ended
	p.signalGroup = func(int, syscall.Signal) error {
		t.Error("its group was signalled")
		return nil
	}
	p.kill(errors.New("late"))
	p.close(endPatience)
	if p.command.ProcessState == nil || p.command.ProcessState.ExitCode() != 3 {
		t.Errorf("it is %v", p.command.ProcessState)
	}
}

// One that couldn't be started has no group.
func TestAProgramThatIsNotThereIsNotKilled(t *testing.T) {
	c := newChild("/nowhere/program", nil)
	c.signalGroup = func(int, syscall.Signal) error {
		t.Error("a group was signalled")
		return nil
	}
	if err := c.launch(); err == nil {
		t.Error("it was started")
	}
	c.killGroup()
}

// What a program has started, and what is in its group, ends with it.
func TestAGroupEndsWithItsLeader(t *testing.T) {
	file := filepath.Join(t.TempDir(), "process")
	p := start(writeProgram(t, "sleep 60 & echo $! >"+file+"; exit 3"), nil, configuration, &readers{})
	<-p.ended
	text, err := os.ReadFile(file)
	if err != nil {
		t.Fatal(err)
	}
	stat := filepath.Join("/proc", strings.TrimSpace(string(text)), "stat")
	waitUntil(t, "it has ended", func() bool {
		text, err := os.ReadFile(stat)
		return err != nil || strings.Contains(string(text), ") Z ") // its new parent may never reap it
	})
}
