package restoring

import (
	"bufio"
	"context"
	"crypto/sha256"
	"encoding/hex"
	"errors"
	"fmt"
	"io"
	"os"
	"path/filepath"
	"regexp"
	"strings"
	"syscall"
)

const (
	officeName = "office"
	recordName = "office.record"
	sumsName   = "SHA256SUMS"
	// walSuffix is added to the name of a file for that of its log.
	walSuffix = "-wal"
	// mostSums is how many bytes a file of sums may have.
	mostSums = 1 << 24
)

// recordFile matches the names of the files of a record: the one at hand, earlier parts, and copies of the office.
var recordFile = regexp.MustCompile(`^(record\.db|record\.db-wal|record-[0-9]+-[0-9]+\.db|base-[0-9]+-[0-9a-f]+)$`)

// A backup has the files of a backup, which are open. No name of them is looked up again.
type backup struct {
	files []*os.File
	names []string
	// sums has the digest of each file by its name, or is nil if the backup has none.
	sums map[string]string
}

var (
	errNoFile  = errors.New("it is no file of its own: somebody has changed the backup")
	errForeign = errors.New("it belongs to another user than root, the user of the office, or whoever runs this: look who has made it, " +
		"and give it to root by chown -R if it is good")
)

// openBackup opens all files of a backup. What isn't of a backup is left alone. No symbolic link is followed but one to the backup.
func openBackup(path string, uid int) (b *backup, err error) {
	b = &backup{}
	defer func() {
		if err != nil {
			b.Close()
		}
	}()
	top, err := os.Open(path)
	if err != nil {
		return b, err
	}
	defer top.Close()
	if err := judge(top, uid, true); err != nil {
		return b, err
	}
	if err := b.open(top, "", officeName, uid); err != nil {
		return b, err
	}
	if err := b.openIfThere(top, "", officeName+walSuffix, uid); err != nil {
		return b, err
	}
	if err := b.openRecord(top, uid); err != nil {
		return b, err
	}
	return b, b.readSums(top, uid)
}

// Close closes all files.
func (b *backup) Close() {
	for _, file := range b.files {
		_ = file.Close()
	}
}

func (b *backup) openRecord(top *os.File, uid int) error {
	folder, err := openIn(top, recordName, syscall.O_DIRECTORY, uid)
	if errors.Is(err, os.ErrNotExist) {
		return nil
	}
	if err != nil {
		return fmt.Errorf("%s: %w", recordName, err)
	}
	defer folder.Close()
	entries, err := folder.ReadDir(-1)
	if err != nil {
		return err
	}
	for _, entry := range entries {
		if recordFile.MatchString(entry.Name()) {
			if err := b.open(folder, recordName, entry.Name(), uid); err != nil {
				return err
			}
		}
	}
	return nil
}

func (b *backup) openIfThere(folder *os.File, prefix, name string, uid int) error {
	err := b.open(folder, prefix, name, uid)
	if errors.Is(err, os.ErrNotExist) {
		return nil
	}
	return err
}

func (b *backup) open(folder *os.File, prefix, name string, uid int) error {
	file, err := openIn(folder, name, 0, uid)
	if err != nil {
		return fmt.Errorf("%s: %w", filepath.Join(prefix, name), err)
	}
	b.files, b.names = append(b.files, file), append(b.names, filepath.Join(prefix, name))
	return nil
}

// openIn opens a file or a folder of a folder for reading, unless it is a link, or belongs to somebody who has no business there.
func openIn(folder *os.File, name string, flags, uid int) (*os.File, error) {
	flags |= syscall.O_RDONLY | syscall.O_NOFOLLOW | syscall.O_NONBLOCK | syscall.O_CLOEXEC
	number, err := syscall.Openat(int(folder.Fd()), name, flags, 0)
	if errors.Is(err, syscall.ELOOP) || errors.Is(err, syscall.ENOTDIR) {
		return nil, errNoFile
	}
	if err != nil {
		return nil, err
	}
	file := os.NewFile(uintptr(number), name)
	if err := judge(file, uid, flags&syscall.O_DIRECTORY != 0); err != nil {
		_ = file.Close()
		return nil, err
	}
	return file, nil
}

// judge refuses what is no file, or no folder, and what a stranger may have written.
func judge(file *os.File, uid int, isFolder bool) error {
	about, err := file.Stat()
	if err != nil {
		return err
	}
	if about.IsDir() != isFolder || !isFolder && !about.Mode().IsRegular() {
		return errNoFile
	}
	if stat, is := about.Sys().(*syscall.Stat_t); is && stat.Uid != 0 && int(stat.Uid) != uid && int(stat.Uid) != os.Geteuid() {
		return errForeign
	}
	return nil
}

// readSums reads the digests of the files, if the backup has them.
func (b *backup) readSums(top *os.File, uid int) error {
	file, err := openIn(top, sumsName, 0, uid)
	if errors.Is(err, os.ErrNotExist) {
		return nil
	}
	if err != nil {
		return fmt.Errorf("%s: %w", sumsName, err)
	}
	defer file.Close()
	b.sums = map[string]string{}
	lines := bufio.NewScanner(io.LimitReader(file, mostSums))
	for lines.Scan() {
		sum, name, has := strings.Cut(lines.Text(), "  ")
		if !has {
			return fmt.Errorf("%s: a line has no name", sumsName)
		}
		b.sums[name] = sum
	}
	return lines.Err()
}

// copyTo copies all files into an empty folder, and compares them with their digests.
func (b *backup) copyTo(ctx context.Context, folder string) error {
	left := make(map[string]string, len(b.sums))
	for name, sum := range b.sums {
		left[name] = sum
	}
	for i, name := range b.names {
		sum, err := copyInto(ctx, b.files[i], filepath.Join(folder, name))
		if err != nil {
			return err
		}
		if b.sums != nil && left[name] != sum {
			return fmt.Errorf("%s: it is not what %s says: take another backup", name, sumsName)
		}
		delete(left, name)
	}
	for name := range left {
		return fmt.Errorf("%q: %s names it, and it is not there: take another backup", name, sumsName)
	}
	return nil
}

// copyInto copies a file to a new one, and returns its digest.
func copyInto(ctx context.Context, from *os.File, to string) (sum string, err error) {
	if err := os.Mkdir(filepath.Dir(to), 0o700); err != nil && !errors.Is(err, os.ErrExist) {
		return "", err
	}
	target, err := os.OpenFile(to, os.O_WRONLY|os.O_CREATE|os.O_EXCL, 0o600)
	if err != nil {
		return "", err
	}
	digest := sha256.New()
	for err == nil {
		if err = ctx.Err(); err == nil {
			_, err = io.CopyN(io.MultiWriter(target, digest), from, 1<<20)
		}
	}
	if closing := target.Close(); errors.Is(err, io.EOF) {
		err = closing
	}
	return hex.EncodeToString(digest.Sum(nil)), err
}
